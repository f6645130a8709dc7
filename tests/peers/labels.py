"""What of ethtool's labels the program says, and in which lines."""
import collections
from decimal import Decimal

# How ethtool's value is read: an amount in a unit that is so many of the program's, or the word
# with which the program's line begins.
CELSIUS, MILLIAMPERE, DBM, WATT = ("degrees C", 1), ("mA", 1), ("dBm", 1), ("W", 1)
VOLT_IN_MV, MILLIWATT_IN_UW, MILLIWATT = ("V", 1000), ("mW", 1000), ("mW", 1)
METRE, KILOMETRE, METRE_IN_KM = ("m", 1), ("km", 1), ("m", Decimal("0.001"))
NANOMETRE, DECIBEL, PERCENT = ("nm", 1), ("db", 1), ("%", 1)
MEGABAUD_IN_GBD = ("(?:MBd|Mbps)", Decimal("0.001"))


def code(value):
    return f"{int(value.split()[0], 16):02X}h"


def high_nibble(value):
    return f"{int(value.split()[0], 16) >> 4:02X}h"


def name(value):
    return value[value.index("(") + 1 : value.index(")")]


def raised(value):
    return {"On": "raised", "Off": "quiet"}[value]


def yes(value):
    return {"On": "yes", "Off": "no", "Yes": "yes", "No": "no"}[value]


def digits(value):
    return value.replace(":", "")


def revision(value):
    return value.removeprefix("Rev. ")


# A label of ethtool's, the report and the line of the program that say the same, and how the value
# is read; last the family, if it is so in one family alone. # is a lane, and /n the value n of
# limits.
ROWS = [
    ("Identifier", "inventory", "identifier", code),
    ("Connector", "inventory", "connector", code),
    ("Transmitter technology", "inventory", "technology", code),
    ("Vendor name", "inventory", "vendor", str),
    ("Vendor OUI", "inventory", "oui", digits),
    ("Vendor PN", "inventory", "part", str),
    ("Vendor rev", "inventory", "part-revision", str),
    ("Vendor SN", "inventory", "serial", str),
    ("Date code", "inventory", "date", str),
    ("Revision compliance", "inventory", "revision", revision),
    ("Power class", "inventory", "power-class", str),
    ("Max power", "inventory", "max-power", WATT),
    ("Cable assembly length", "inventory", "length", METRE),
    ("Module State", "flags", "state", name),
    ("Module temperature", "monitors", "temperature", CELSIUS),
    ("Module voltage", "monitors", "vcc", VOLT_IN_MV),
    ("Laser bias current", "monitors", "tx-bias 1", MILLIAMPERE),
    ("Laser output power", "monitors", "tx-power 1", MILLIWATT_IN_UW),
    ("Laser tx bias current (Channel #)", "monitors", "tx-bias #", MILLIAMPERE),
    ("Transmit avg optical power (Channel #)", "monitors", "tx-power #", MILLIWATT_IN_UW),
    ("Identifier", "details", "identifier", code),
    ("Extended identifier", "details", "extended-identifier", code, "SFF-8472"),
    ("Connector", "details", "connector", code),
    ("Encoding", "details", "encoding", code),
    ("Rate identifier", "details", "rate-select-type", code),
    ("Transmitter technology", "details", "technology", code, "CMIS"),
    ("Transmitter technology", "details", "technology", high_nibble, "SFF-8636"),
    ("Passive Cu cmplnce.", "details", "passive-cable-compliance", code),
    ("Active Cu cmplnce.", "details", "active-cable-compliance", code),
    ("Module Fault Cause", "details", "fault-cause", code),
    ("Module State", "details", "state", name),
    ("Vendor name", "details", "vendor", str),
    ("Vendor OUI", "details", "oui", digits),
    ("Vendor PN", "details", "part", str),
    ("Vendor rev", "details", "part-revision", str),
    ("Vendor SN", "details", "serial", str),
    ("Date code", "details", "date", str),
    ("CLEI code", "details", "clei", str),
    ("Revision compliance", "details", "revision", revision),
    ("Power class", "details", "power-class", str),
    ("Max power", "details", "max-power", WATT),
    ("BR, Nominal", "details", "bit-rate", MEGABAUD_IN_GBD),
    ("BR margin, max", "details", "bit-rate-margin-max", PERCENT),
    ("BR margin, min", "details", "bit-rate-margin-min", PERCENT),
    ("Cable assembly length", "details", "length", METRE),
    ("Length (Copper or Active cable)", "details", "length", METRE),
    ("Length (Copper)", "details", "length", METRE),
    ("Length (SMF)", "details", "length-smf", KILOMETRE, "CMIS"),
    ("Length (SMF,km)", "details", "length-smf", KILOMETRE),
    ("Length (SMF)", "details", "length-smf-in-100-m", METRE_IN_KM, "SFF-8472"),
    ("Length (OM5)", "details", "length-om5", METRE),
    ("Length (OM4)", "details", "length-om4", METRE),
    ("Length (OM3 50/125um)", "details", "length-om3", METRE),
    ("Length (OM3 50um)", "details", "length-om3", METRE),
    ("Length (OM3)", "details", "length-om3", METRE),
    ("Length (OM2 50/125um)", "details", "length-om2", METRE),
    ("Length (OM2 50um)", "details", "length-om2", METRE),
    ("Length (50um)", "details", "length-om2", METRE),
    ("Length (OM1 62.5um)", "details", "length-om1", METRE),
    ("Length (62.5um)", "details", "length-om1", METRE),
    ("Laser wavelength", "details", "wavelength", NANOMETRE),
    ("Laser wavelength tolerance", "details", "wavelength-tolerance", NANOMETRE),
    ("Attenuation at 2.5GHz", "details", "attenuation-at-2500-mhz", DECIBEL),
    ("Attenuation at 5GHz", "details", "attenuation-at-5000-mhz", DECIBEL),
    ("Attenuation at 5.0GHz", "details", "attenuation-at-5000-mhz", DECIBEL),
    ("Attenuation at 7GHz", "details", "attenuation-at-7000-mhz", DECIBEL),
    ("Attenuation at 7.0GHz", "details", "attenuation-at-7000-mhz", DECIBEL),
    ("Attenuation at 12.9GHz", "details", "attenuation-at-12900-mhz", DECIBEL),
    ("Attenuation at 25.8GHz", "details", "attenuation-at-25800-mhz", DECIBEL),
    ("Tx CDR", "details", "tx-cdr", yes),
    ("Rx CDR", "details", "rx-cdr", yes),
    ("Tx CDR bypass control", "details", "tx-cdr-control", yes),
    ("Rx CDR bypass control", "details", "rx-cdr-control", yes),
    ("LowPwrAllowRequestHW", "details", "low-power-allow-hw", yes),
    ("LowPwrRequestSW", "details", "low-power-request-sw", yes),
    ("Power set", "details", "power-set", yes),
    ("Power override", "details", "power-override", yes),
    ("Optical diagnostics support", "details", "diagnostics", yes),
    ("Alarm/warning flags implemented", "details", "alarms", yes),
    ("Module temperature", "details", "temperature", CELSIUS),
    ("Module voltage", "details", "vcc", VOLT_IN_MV),
    ("Laser bias current", "details", "tx-bias-lane-1", MILLIAMPERE),
    ("Laser tx bias current (Channel #)", "details", "tx-bias-lane-#", MILLIAMPERE),
    ("Laser output power", "details", "tx-power-mw-lane-1", MILLIWATT),
    ("Laser output power", "details", "tx-power-lane-1", DBM),
    ("Transmit avg optical power (Channel #)", "details", "tx-power-mw-lane-#", MILLIWATT),
    ("Transmit avg optical power (Channel #)", "details", "tx-power-lane-#", DBM),
]
for label in ("Receiver signal OMA", "Receiver signal average optical power"):
    ROWS += [
        (label, "monitors", "rx-power 1", MILLIWATT_IN_UW),
        (label, "details", "rx-power-mw-lane-1", MILLIWATT),
        (label, "details", "rx-power-lane-1", DBM),
    ]
# without a space for SFF-8636
for label in ("Receiver signal OMA", "Rcvr signal avg optical power"):
    for lane in (" (Channel #)", "(Channel #)"):
        ROWS += [
            (label + lane, "monitors", "rx-power #", MILLIWATT_IN_UW),
            (label + lane, "details", "rx-power-mw-lane-#", MILLIWATT),
            (label + lane, "details", "rx-power-lane-#", DBM),
        ]
for number, level in enumerate(("high alarm", "low alarm", "high warning", "low warning")):
    ending = level.replace(" ", "-")
    for label, quantity, lane, form in (
        ("Module temperature", "temperature", "", CELSIUS),
        ("Module voltage", "vcc", "", VOLT_IN_MV),
        ("Laser bias current", "tx-bias", " 1", MILLIAMPERE),
        ("Laser output power", "tx-power", " 1", MILLIWATT_IN_UW),
        ("Laser rx power", "rx-power", " 1", MILLIWATT_IN_UW),
    ):
        ROWS += [
            (f"{label} {level} threshold", "monitors", f"{quantity}-limits/{number}", form),
            (f"{label} {level}", "flags", f"{quantity}-{ending}{lane}", raised),
        ]
    for label, quantity in (
        (f"Laser bias current {level} (Chan #)", "tx-bias"),
        (f"Laser tx power {level} (Channel #)", "tx-power"),
        (f"Laser rx power {level} (Channel #)", "rx-power"),
    ):
        ROWS.append((label, "flags", f"{quantity}-{ending} #", raised))
TABLE = collections.defaultdict(list)
for label, *row in ROWS:
    TABLE[label].append(row)
