"""The names that scripts and explanations use: the Rust's, where it has one."""
from rehearsal.language.formats import Cause, Flags, Number, OneOf

STATUS_FLAGS = {"IE": 1, "PIE": 2, "U": 4, "PU": 8, "PSM": 16}
REGION_FLAGS = {"R": 1, "W": 2, "X": 4}
LEAF_FLAGS = {"R": 2, "W": 4, "X": 8, "U": 16}
CACHE_FLAGS = {"I_EN": 1, "D_EN": 2, "INV_I": 0x100, "INV_D": 0x200, "CLR_STATS": 0x400}

SYSTEM_REGISTERS = {"STATUS": 0x00, "EPC": 0x01, "CAUSE": 0x02, "USP": 0x08, "UFP": 0x09, "UGP": 0x0A}
REGION_PARTS = ("START", "END", "FLAGS")
SYSTEM_REGISTERS |= {f"RGN{n}_{part}": 0x10 + 4 * n + k for n in range(8) for k, part in enumerate(REGION_PARTS)}
SYSTEM_REGISTERS |= {"VCTL": 0x40, "PTBR": 0x41, "VFAULT": 0x42, "TLBFLUSH": 0x43, "TLBINV": 0x44}
CACHE_REGISTERS = {"INFO": 0x00, "CTRL": 0x04, "I_HITS": 0x10, "I_MISSES": 0x14, "D_HITS": 0x18, "D_MISSES": 0x1C}
REGISTERS = {f"R{n}": n for n in range(32)}

ACCESS_DETAILS = {"read": 1, "write": 2, "fetch": 4}
EXCEPTIONS = {
    "illegal": 0x80010000,
    "bus-error": 0x80020000,
    "syscall": 0x80030000,
    "privileged": 0x80040000,
    "protection-fault": 0x80050000,
    "page-fault": 0x80060000,
}
CAUSE = Cause(EXCEPTIONS, {"protection-fault": ACCESS_DETAILS, "page-fault": ACCESS_DETAILS | {"protection": 8}})

SIZE = Number("a size", 8, str)
ADDRESS = Number("an address", 32, "0x{:X}".format)
VALUE = Number("a value", 32)
LENGTH = Number("a length", 32)
MASK = Number("a mask of sources", 16, "0x{:04X}".format)
SOURCE = Number("a source's number", 16, str)
LEVEL = OneOf("'low' or 'high'", 8, {"low": 0, "high": 1})
MODE = OneOf("'normal' or 'short'", 16, {"normal": 0, "short": 1})
REGISTER = OneOf("a register, R0 to R31", 8, REGISTERS, str)
SYSTEM_REGISTER = OneOf("a system register", 16, SYSTEM_REGISTERS)
CACHE_REGISTER = OneOf("a cache register", 32, CACHE_REGISTERS)

STATUS = Flags("a flag of STATUS or a number", 32, STATUS_FLAGS)
REGION = Flags("R, W, X or a number", 32, REGION_FLAGS)
VCTL = Flags("EN or a number", 32, {"EN": 1})
CACHE_CONTROL = Flags("a flag of CTRL or a number", 32, CACHE_FLAGS)

# The values of registers that are more than a number.
VALUES = {SYSTEM_REGISTERS["STATUS"]: STATUS, SYSTEM_REGISTERS["CAUSE"]: CAUSE, SYSTEM_REGISTERS["VCTL"]: VCTL}
VALUES |= {SYSTEM_REGISTERS[f"RGN{n}_FLAGS"]: REGION for n in range(8)}
CACHE_VALUES = {CACHE_REGISTERS["CTRL"]: CACHE_CONTROL}


def letters(flags, names):
    """The names of set bits as one word, such as RWU; a dash where none is set."""
    return "".join(name for name, bit in names.items() if flags & bit) or "-"
