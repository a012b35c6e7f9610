// The names of rules and commands. A rule has the short name of crates/rules/src/lib.rt, the manual's name
// (docs/MANUAL.md) and the unit of its threshold and recovery.

pub struct RuleName {
    pub short: &'static str,
    pub long: &'static str,
    pub unit: &'static str,
}

const fn rule(short: &'static str, long: &'static str, unit: &'static str) -> RuleName {
    RuleName { short, long, unit }
}

pub const RULES: [RuleName; 16] = [
    rule("COV", "Cell Overvoltage", "mV"),
    rule("CUV", "Cell Undervoltage", "mV"),
    rule("POV", "Pack Overvoltage", "mV"),
    rule("PUV", "Pack Undervoltage", "mV"),
    rule("OC Charge", "Charge Overcurrent", "mA"),
    rule("OC Discharge", "Discharge Overcurrent", "mA"),
    rule("OT Charge", "Overtemperature Charge", "0.1 °C"),
    rule("OT Discharge", "Overtemperature Discharge", "0.1 °C"),
    rule("Board Over Temperature", "Board Overtemperature", "0.1 °C"),
    rule("Discharge Under Temperature", "Discharge Undertemperature", "0.1 °C"),
    rule("SOV", "Safety Cell Overvoltage", "mV"),
    rule("SOC Charge", "Safety Overcurrent Charge", "mA"),
    rule("SOC Discharge", "Safety Overcurrent Discharge", "mA"),
    rule("SOT Charge", "Safety Overtemperature Charge", "0.1 °C"),
    rule("SOT Discharge", "Safety Overtemperature Discharge", "0.1 °C"),
    rule("Cell Imbalance", "Cell Imbalance", "mV"),
];

pub const VOLTAGE: u8 = 0x09;
pub const CURRENT: u8 = 0x0a;
pub const BATTERY_STATUS: u8 = 0x16;

// The read-word commands 00h to 1Ch of the Smart Battery Data Specification.
pub const COMMANDS: [&str; 29] = [
    "ManufacturerAccess",
    "RemainingCapacityAlarm",
    "RemainingTimeAlarm",
    "BatteryMode",
    "AtRate",
    "AtRateTimeToFull",
    "AtRateTimeToEmpty",
    "AtRateOK",
    "Temperature",
    "Voltage",
    "Current",
    "AverageCurrent",
    "MaxError",
    "RelativeStateOfCharge",
    "AbsoluteStateOfCharge",
    "RemainingCapacity",
    "FullChargeCapacity",
    "RunTimeToEmpty",
    "AverageTimeToEmpty",
    "AverageTimeToFull",
    "ChargingCurrent",
    "ChargingVoltage",
    "BatteryStatus",
    "CycleCount",
    "DesignCapacity",
    "DesignVoltage",
    "SpecificationInfo",
    "ManufactureDate",
    "SerialNumber",
];

// The alarm bits of BatteryStatus that the rules set.
const ALARMS: [(u16, &str); 3] = [(0x4000, "TCA"), (0x1000, "OTA"), (0x0800, "TDA")];

// The names of the alarms that a word of BatteryStatus sets.
pub fn alarms(word: u16) -> Vec<&'static str> {
    ALARMS.iter().filter(|a| word & a.0 != 0).map(|a| a.1).collect()
}

// The command and the word of six bus bytes.
pub fn reply_text(bus: &[u8; 6]) -> String {
    let (command, word) = (bus[1], u16::from_le_bytes([bus[3], bus[4]]));
    match (command, COMMANDS.get(command as usize)) {
        (VOLTAGE, _) => format!("Voltage {word} mV"),
        (CURRENT, _) => format!("Current {} mA", word as i16),
        (BATTERY_STATUS, _) => {
            let set = alarms(word);
            let set = if set.is_empty() { "no alarm".to_string() } else { set.join(", ") };
            format!("BatteryStatus {word:04X}h ({set})")
        }
        (_, Some(name)) => format!("{name} {word:04X}h"),
        (_, None) => format!("command {command:02X}h, word {word:04X}h"),
    }
}
