"""The rules of a walk: PTEs, rights, A and D, PMP. Numbers in comments are sections of the RISC-V Privileged Architecture 20211203.

An outcome is the text that `xv6lab mmu` has for it: `pa 0x80010008 nc set 0x80003008 0x200040d7`, or `fault 13`.
"""
import collections

V, R, W, X, U, G, A, D = (1 << bit for bit in range(8))
BITS = dict(zip("VRWXUGAD", (V, R, W, X, U, G, A, D)))
TOPS = {8: 2, 9: 3, 10: 4}  # the level of the root by MODE of satp: Sv39, Sv48, Sv57
MISALIGNED = {"fetch": 0, "load": 4, "store": 6}
ACCESS_FAULT = {"fetch": 1, "load": 5, "store": 7}
PAGE_FAULT = {"fetch": 12, "load": 13, "store": 15}
TYPES = ["", " nc", " io", None]  # by PBMT; 3 is reserved (chapter 6)

# ad: svade, svadu or ad-either. ordered, fence_invalid: the narrower readings, as in docs/MMU.md
Profile = collections.namedtuple("Profile", "modes ad svnapot svpbmt pmps asid_bits ordered fence_invalid")
Status = collections.namedtuple("Status", "sum mxr mprv mpp")
Access = collections.namedtuple("Access", "kind va width mode")


def words_of(profile):
    """The line `profile` that makes it."""
    said = ["profile", *profile.modes, profile.ad]
    said += [name for name in ("svnapot", "svpbmt", "ordered") if getattr(profile, name)]
    said += ["fence-invalid"] if profile.fence_invalid else []
    said += [f"pmp{profile.pmps}"] if profile.pmps else []
    return " ".join(said + ([f"asid{profile.asid_bits}"] if profile.asid_bits < 16 else []))


def top_of(satp):
    """The level of the root; None under Bare (4.1.11)."""
    return TOPS.get(satp >> 60)


def asid_of(satp):
    return satp >> 44 & 0xFFFF


def root_of(satp):
    return satp & (1 << 44) - 1


def is_canonical(va, top):
    """4.4.1, 4.5.1, 4.6.1: the upper bits equal bit 38, 47 or 56."""
    return va >> 20 + 9 * top in (0, (1 << 44 - 9 * top) - 1)


def index_of(va, level):
    return va >> 12 + 9 * level & 511


def ppn_of(word):
    return word >> 10 & (1 << 44) - 1


def kind_of(profile, word, level):
    """4.3.2, steps 3 and 4; chapters 5 and 6."""
    napot, pbmt = word >> 63, word >> 61 & 3
    if not word & V or word & (R | W) == W or word >> 54 & 0x7F:
        return "invalid"
    if (napot and not profile.svnapot) or (pbmt and not profile.svpbmt) or pbmt == 3:
        return "invalid"
    if word & (R | X):
        return "invalid" if napot and (level or ppn_of(word) & 15 != 8) else "leaf"
    return "invalid" if level == 0 or napot or pbmt or word & (U | A | D) else "pointer"


def is_napot(profile, word, level):
    return bool(word >> 63) and kind_of(profile, word, level) == "leaf"


def reach_of(profile, word, level):
    """How many low bits of an address a PTE leaves alone."""
    return 16 if is_napot(profile, word, level) else 12 + 9 * level


def is_global(word):
    return word & (V | G) == V | G


def effective(mode, kind, status):
    """3.1.6.3."""
    return status.mpp if mode == "M" and status.mprv and kind != "fetch" else mode


def allows(word, level, kind, privilege, status):
    """4.3.2, steps 5 and 6; 3.1.6.3 and 4.3.1."""
    right = {"fetch": word & X, "load": word & R or (status.mxr and word & X), "store": word & W}[kind]
    if privilege == "U":
        mine = word & U
    else:
        mine = not word & U or (status.sum and kind != "fetch")
    return bool(right and mine and ppn_of(word) % (1 << 9 * level) == 0)


def aged(word, kind):
    """4.3.2, step 7: the PTE with A and, for a store, D."""
    return word | A | (D if kind == "store" else 0)


def has_aged(word, new):
    """A word is another one, or that with A, or with A and D."""
    return new in (word, aged(word, "load"), aged(word, "store"))


def updates(word, was, new):
    """A store over a word may be the update of A and D by a leaf that had another one."""
    return has_aged(word, was) and has_aged(was, new) and was != new


def leads_to(profile, word, level, va):
    """4.3.2, step 8; chapter 5."""
    bits = reach_of(profile, word, level)
    return ppn_of(word) << 12 >> bits << bits | va & (1 << bits) - 1


def region_of(config, address, below):
    """3.7.1: the first byte that an entry matches, and the end."""
    matching = config >> 3 & 3
    if matching == 0:
        return 0, 0
    if matching == 1:
        return below << 2, address << 2
    if matching == 2:
        return address << 2, (address << 2) + 4
    size = (address ^ address + 1) + 1 << 2
    return (address << 2) // size * size, (address << 2) // size * size + size


def pmp_permits(entries, privilege, kind, pa, width):
    """3.7.1: the lowest entry that matches a byte decides, and must match all."""
    below = 0
    for config, address in entries:
        first, end = region_of(config, address, below)
        below = address
        if max(first, pa) < min(end, pa + width):
            if not (first <= pa and pa + width <= end):
                return False
            return (privilege == "M" and not config & 0x80) or bool(config & {"load": 1, "store": 2, "fetch": 4}[kind])
    return privilege == "M" or not entries


def of_parts(outcomes, access):
    """3.1.15: the faults of the first or last byte of a misaligned access, which may come before its exception; they are not listed. `outcomes` are
    those of an access."""
    if not access.va % access.width:
        return frozenset()
    ends = access.va, access.va + access.width - 1 & (1 << 64) - 1
    return frozenset(it for va in ends for it in outcomes(access._replace(va=va, width=1)) if it.startswith("fault"))


def is_locked(entries, number):
    """3.7.1: an entry with L is not written."""
    return bool(entries[number][0] & 0x80)


def is_address_locked(entries, number):
    """3.7.1: L in a TOR entry locks the address below it."""
    return number + 1 < len(entries) and entries[number + 1][0] & 0x98 == 0x88


def with_entry(entries, number, config, address):
    """The entries after a write."""
    address = entries[number][1] if is_address_locked(entries, number) else address
    return entries[:number] + ((config, address),) + entries[number + 1 :]
