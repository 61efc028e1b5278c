"""The names that stand for bytes: commands (document 01, 'Command bytes'), Tc limits and colour values; and what a
gear needs for a colour value."""

ROW = 16  # the bytes of a command for sixteen scenes or groups stand in a row


class Commands:
    """Names of command bytes. A name in 'rows' is one command for sixteen scenes or groups: an index follows it."""

    def __init__(self, single, rows):
        self.bytes = {name: byte for byte, name in single.items()}
        self.bytes.update({name: first for first, (name, _) in rows.items()})
        self.indexed = dict(rows.values())
        self.by_byte = {byte: (name, None) for byte, name in single.items()}
        for first, (name, _) in rows.items():
            self.by_byte.update({first + index: (name, index) for index in range(ROW)})


WRITES = Commands(
    {
        0: "Off",
        1: "Up",
        2: "Down",
        3: "StepUp",
        4: "StepDown",
        5: "RecallMaxLevel",
        6: "RecallMinLevel",
        7: "StepDownAndOff",
        8: "OnAndStepUp",
        10: "GoToLastActiveLevel",
        32: "Reset",
        37: "IdentifyDevice",
        42: "SetMaxLevel",
        43: "SetMinLevel",
        44: "SetSystemFailureLevel",
        45: "SetPowerOnLevel",
        46: "SetFadeTime",
        47: "SetFadeRate",
        48: "SetExtendedFadeTime",
        129: "EnableWriteMemory",
    },
    {
        16: ("GoToScene", "scene"),
        64: ("SetScene", "scene"),
        80: ("RemoveScene", "scene"),
        96: ("AddToGroup", "group"),
        112: ("RemoveFromGroup", "group"),
    },
)

# The writes that store DTR0. One of these without a value is a slip, so the value must be given.
STORES_DTR0 = {name for name in WRITES.bytes if name.startswith("Set")}

# Part 102's names, without the word QUERY.
QUERIES = Commands(
    {
        144: "Status",
        145: "ControlGearPresent",
        146: "LampFailure",
        147: "LampPowerOn",
        148: "LimitError",
        149: "ResetState",
        150: "MissingShortAddress",
        151: "VersionNumber",
        153: "DeviceType",
        154: "PhysicalMinimum",
        155: "PowerFailure",
        158: "OperatingMode",
        159: "LightSourceType",
        160: "ActualLevel",
        161: "MaxLevel",
        162: "MinLevel",
        163: "PowerOnLevel",
        164: "SystemFailureLevel",
        165: "FadeTimeFadeRate",
        166: "ManufacturerSpecificMode",
        167: "NextDeviceType",
        168: "ExtendedFadeTime",
        170: "ControlGearFailure",
        192: "Groups0To7",
        193: "Groups8To15",
        194: "RandomAddressH",
        195: "RandomAddressM",
        196: "RandomAddressL",
    },
    {176: ("SceneLevel", "scene")},
)

TC_LIMITS = {"coolest": 0, "warmest": 1, "physical-coolest": 2, "physical-warmest": 3}

TC_STEPS = {"cooler": 0, "warmer": 1}


# What a gear may need for a colour value. One that lacks it can't have the value, and this is said of it.
XY, TC, CHANNEL, NOTHING = "xy", "Tc", "a channel", "nothing"
LACKS = {
    XY: "this gear has no xy colour",
    TC: "this gear has no colour temperature",
    CHANNEL: "this gear has no colour channels",
}


def colour_values():
    """Part 209's ids, each with what it needs: the active colour's from 0, the staged one's from 192 and the report's
    from 224, alike."""
    own = {"x": (0, XY), "y": (1, XY), "tc": (2, TC)}
    channels = ("red", "green", "blue", "white", "amber", "freecolour", "control")
    own.update({name: (9 + place, CHANNEL) for place, name in enumerate(channels)})
    values = dict(own)
    values["primary-count"] = (82, NOTHING)
    limits = ("coolest", "physical-coolest", "warmest", "physical-warmest")
    values.update({name: (128 + place, TC) for place, name in enumerate(limits)})
    for part, first in (("staged", 192), ("report", 224)):
        values.update({f"{part}-{name}": (first + place, need) for name, (place, need) in own.items()})
        values[f"{part}-type"] = (first + 16, NOTHING)
    return values


COLOUR_VALUES = {name: value for name, (value, _) in colour_values().items()}
NEEDS = dict(colour_values().values())  # by id
