"""A program of crates/ built from its sources as they are now, without any proof: for measuring, never kept in a crate's out/."""
import subprocess

from driver import Stop, kit

LIBRARIES = ("std", "numbers", "colour", "level", "bank", "gear", "query", "calls", "step", "file", "runner", "io", "libc", "os")
# The kit's tool that builds a program without proof and without checks in it.
BUILDER = "rattle-cases"


def wrapped_tools(folder, tools):
    """The kit's tools, with a compiler that keeps what it reads and makes at -O3, and the words that it is given."""
    (folder / "bin").mkdir()
    for tool in (tools / "bin").iterdir():
        (folder / "bin" / tool.name).symlink_to(tool)
    (folder / "lib").symlink_to(tools / "lib")
    clang = folder / "bin" / "clang"
    clang.unlink()
    clang.write_text(f"""#!/bin/bash
'{tools}/bin/clang' "$@" || exit
case " $* " in *" -O3 "*) cp module.bc module.o '{folder}' && printf '%s\\n' "$@" >'{folder}/words' ;; esac
""")
    clang.chmod(0o755)
    return folder


def build(name, crates, folder, given, written):
    """Builds it, and sees that for the bytes that it is given it writes what it should. Leaves in the folder module.bc,
    the program before the compiler improves it, module.o, and the compiler's words."""
    home = kit()
    if not (home / "bin" / BUILDER).exists():
        raise Stop(3, f"this kit has no {BUILDER}; what 'rt try' builds has checks in it, which would be measured too")
    tools = wrapped_tools(folder, home / "toolchain")
    (folder / "stdin").write_bytes(given)
    (folder / "stdout").write_bytes(written)
    words = [str(home / "bin" / BUILDER), "--toolchain", str(tools), "--link", str(home / "c" / "libos_c.a"),
             "--stdin", str(folder / "stdin"), "--stdout", str(folder / "stdout"),
             str(crates / name / "src" / "main.rt"), "--crate-name", name]
    for library in LIBRARIES:
        ours = crates / library / "src" / "lib.rt"
        words += ["--lib", f"{library}={ours if ours.exists() else home / 'rattle' / library / 'src' / 'lib.rt'}"]
    tried = subprocess.run(words, stdin=subprocess.DEVNULL, capture_output=True, text=True)
    if tried.returncode != 0 or not (folder / "module.o").exists():
        raise Stop(1, f"it does not compile or run:\n{tried.stdout}{tried.stderr}".rstrip())
