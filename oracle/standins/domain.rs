//! Stand-in for the crate `dali2rust_domain`: the names that gear.rs, switching.rs and dt8_color.rs
//! take from it, with the values that document 01 fixes.
//!
//! 'Document 01' in a comment names the words that fix a value; they stand in its section "What the
//! record covers" unless another is named. 'No effect' marks what the covered calls never look at:
//! it is there because the files would not compile without it.

#[path = "standard.rs"]
pub mod standard;

pub mod registry {
    /// Document 01: "scenes 16, groups 16".
    pub const GROUP_COUNT: u8 = 16;
    /// Document 01: "scenes 16, groups 16".
    pub const SCENE_COUNT: u8 = 16;
}

pub mod dali {
    pub mod status {
        //! Document 01: "Status bits (part 102): 0 gear failure, 1 lamp failure, 2 lamp on, 3 limit
        //! error, 5 reset state, 6 missing short address, 7 power cycle seen."
        pub const STATUS_GEAR_FAILURE: u8 = 1 << 0;
        pub const STATUS_LAMP_FAILURE: u8 = 1 << 1;
        pub const STATUS_LAMP_ON: u8 = 1 << 2;
        pub const STATUS_LIMIT_ERROR: u8 = 1 << 3;
        /// No effect: gear.rs only passes the name on. Bit 4 is the one that document 01 leaves out.
        pub const STATUS_FADE_RUNNING: u8 = 1 << 4;
        pub const STATUS_RESET_STATE: u8 = 1 << 5;
        pub const STATUS_MISSING_SHORT_ADDRESS: u8 = 1 << 6;
        pub const STATUS_POWER_CYCLE_SEEN: u8 = 1 << 7;
    }

    pub mod types {
        /// Document 01 covers "address matching"; refusal 4 is "group address above 15", and
        /// document 02, item 1, lists the same four: short, group, broadcast, unaddressed.
        #[derive(Debug, Clone, Copy, PartialEq, Eq)]
        pub enum DaliAddress {
            Short(u8),
            Group(u8),
            Broadcast,
            BroadcastUnaddressed,
        }
    }

    pub mod pres {
        pub use crate::standard;
    }

    pub mod banks {
        /// Document 01: "`BANK_LOCK_BYTE` 2".
        pub const BANK_LOCK_BYTE: u8 = 2;

        /// No effect: `bus_unit_extension` is off ("those options are off").
        pub const BUS_UNIT_CONFIGURATION_OFFSET: u8 = 27;
        /// No effect: `bus_unit_extension` is off ("those options are off").
        pub const IMPLEMENTED_PARTS_OFFSET: u8 = 28;
        /// No effect: metering is off ("those options are off").
        pub const DEVICE_TYPE_ENERGY: u8 = 51;
        /// No effect: metering is off ("those options are off").
        pub const DEVICE_TYPE_DIAGNOSTICS: u8 = 52;

        pub mod identity {
            /// Document 01: "`IDENTIFICATION_NUMBER` bank 0 offsets 11 to 18".
            pub const IDENTIFICATION_NUMBER: core::ops::Range<usize> = 11..19;
            /// Document 01: "`LOGICAL_GEAR_INDEX_OFFSET` 26".
            pub const LOGICAL_GEAR_INDEX_OFFSET: u8 = 26;
            /// Document 01: "`MASK` 255".
            pub const MASK: u8 = 255;
        }

        pub mod part251 {
            /// It has no value: luminaire banks are left behind, so no profile can name a format.
            #[derive(Debug, Clone, Copy, PartialEq, Eq)]
            pub enum LuminaireFormat {}
        }
    }

    pub mod devices {
        /// Document 01: "device types LED 6, switching 7, colour 8".
        #[derive(Debug, Clone, Copy, PartialEq, Eq)]
        pub enum DeviceType {
            Led = 6,
            Switching = 7,
            Color = 8,
        }

        impl DeviceType {
            pub const fn code(self) -> u8 {
                self as u8
            }
        }

        /// No effect: dt8_color.rs describes its commands with it, and no covered call asks.
        pub struct CommandMetadata {
            pub device_type: Option<DeviceType>,
            pub opcode: u8,
            pub expects_backward: bool,
            pub requires_repeat: bool,
        }

        /// No effect: see `CommandMetadata`.
        pub trait DeviceCommandMetadata {
            fn metadata(&self) -> CommandMetadata;
        }

        pub mod dt6_led {
            /// Document 01: "Part 207 failure bits 0 to 6: short circuit, open circuit, load
            /// decrease, load increase, current protector, thermal shut-down, thermal overload."
            #[derive(Debug, Clone, Copy, PartialEq, Eq)]
            pub struct FailureStatusBits {
                pub short_circuit: bool,
                pub open_circuit: bool,
                pub load_decrease: bool,
                pub load_increase: bool,
                pub current_protector_active: bool,
                pub thermal_shut_down: bool,
                pub thermal_overload: bool,
            }

            /// The bits of `FailureStatusBits` in document 01's order; bit 7 is not named there.
            pub const fn decode_failure_status(status: u8) -> FailureStatusBits {
                FailureStatusBits {
                    short_circuit: status & (1 << 0) != 0,
                    open_circuit: status & (1 << 1) != 0,
                    load_decrease: status & (1 << 2) != 0,
                    load_increase: status & (1 << 3) != 0,
                    current_protector_active: status & (1 << 4) != 0,
                    thermal_shut_down: status & (1 << 5) != 0,
                    thermal_overload: status & (1 << 6) != 0,
                }
            }
        }

        pub mod dt7_switching {
            /// A free choice of this stand-in. Document 01: "The bit for adjustable thresholds is
            /// not in the text, so the profile holds a yes or no." A profile that says yes gets
            /// this bit alone in its switching features, one that says no gets 0.
            pub const FEATURE_ADJUSTABLE_THRESHOLDS: u8 = 1 << 0;

            // The rest serves the `Switching` record alone, which document 01 leaves behind: no
            // effect.
            pub const FEATURE_ADJUSTABLE_HOLD_OFF: u8 = 1 << 1;
            pub const FEATURE_REFERENCE_SYSTEM_POWER: u8 = 1 << 2;
            pub const SWITCH_STATUS_REFERENCE_FAILED: u8 = 1 << 3;

            #[derive(Debug, Clone, Copy, PartialEq, Eq)]
            pub struct Threshold(u8);

            impl Threshold {
                pub const ALL: [Threshold; 4] = [Threshold(0), Threshold(1), Threshold(2), Threshold(3)];

                pub fn factory(self) -> u8 {
                    0
                }

                pub fn index(self) -> u8 {
                    self.0
                }

                pub fn within_range(self, value: u8) -> u8 {
                    value
                }
            }

            #[derive(Debug, Clone, Copy, PartialEq, Eq)]
            pub enum Dt7Command {
                ReferenceSystemPower,
                StoreDtrAsThreshold(Threshold),
                StoreDtrAsErrorHoldOffTime,
                QueryFeatures,
                QuerySwitchStatus,
                QueryThreshold(Threshold),
                QueryErrorHoldOffTime,
                QueryGearType,
                QueryReferenceRunning,
                QueryReferenceMeasurementFailed,
                QueryExtendedVersionNumber,
            }
        }

        pub mod dt8_color {
            // The real file, unchanged. It also holds what document 01 says of the gear features:
            // "automatic activation is bit 0 of the gear features, 1 at power-up."
            include!(concat!(env!("GEAR_SOURCE_ABS"), "/crates/dali2rust-domain/src/dali/devices/dt8_color.rs"));
        }
    }
}
