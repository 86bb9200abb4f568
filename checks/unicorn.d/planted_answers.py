"""Changes of the program's answers, each as a wrong program might answer: one rule of the walk is broken. Each is a wrong body of
a plain walk; at an access where it says something else than the walk, its outcomes are put in place of the program's."""
from compare import told
from memories import A, R, U, V, W, X
from walk import PAGE_FAULT, Fault, Hart


class SumIgnored(Hart):
    def denied(self, access, privilege, level, word):
        return super().denied(access._replace(status=access.status._replace(sum=0)), privilege, level, word)


class MxrIgnored(Hart):
    def denied(self, access, privilege, level, word):
        return super().denied(access._replace(status=access.status._replace(mxr=0)), privilege, level, word)


class MxrForStores(Hart):
    def denied(self, access, privilege, level, word):
        more = W if access.kind == "store" and access.status.mxr and word & X else 0
        return super().denied(access, privilege, level, word | more)


class UserFetchedByS(Hart):
    def denied(self, access, privilege, level, word):
        fetched = access.kind == "fetch" and privilege == "S" and access.status.sum
        return super().denied(access, privilege, level, word & ~U if fetched else word)


class UserIgnored(Hart):
    def denied(self, access, privilege, level, word):
        return super().denied(access, privilege, level, word | U if privilege == "U" else word)


class NotAligned(Hart):
    def denied(self, access, privilege, level, word):
        return super().denied(access, privilege, 0, word)


class DirtyAlone(Hart):
    def update(self, access, place, word):
        found = super().update(access, place, word)
        return (place, found[1] & ~A | word & A) if found and access.kind == "store" else found


class AlwaysDirty(Hart):
    def update(self, access, place, word):
        return super().update(access._replace(kind="store"), place, word)


class NeverUpdated(Hart):
    def update(self, access, place, word):
        return None


class WriteAlone(Hart):
    def kind(self, word, level):
        return "leaf" if word & V and word & (R | W) == W and not word >> 54 else super().kind(word, level)


class InvalidFollowed(Hart):
    def kind(self, word, level):
        return super().kind(word | V, level)


class OffsetOfAPage(Hart):
    def reached(self, access, privilege, pa, type_, update):
        return super().reached(access, privilege, pa & ~0x1FF000, type_, update)


class CanonicalIgnored(Hart):
    def walked(self, access):
        return super().walked(access._replace(va=access.va % (1 << 38)))


class CauseOfALoad(Hart):
    def walked(self, access):
        found = super().walked(access)
        wrong = {Fault(PAGE_FAULT["load"], it.update) if it == Fault(PAGE_FAULT["store"], None) else it for it in found.outcomes}
        return found._replace(outcomes=wrong)


class TableOfLevelBelow(Hart):
    def kind(self, word, level):
        found = super().kind(word, level)
        return "V clear" if found == "leaf" and level == 2 else found


PLANTED = {
    "SUM is ignored": SumIgnored,
    "MXR is ignored": MxrIgnored,
    "MXR makes what can be executed writable": MxrForStores,
    "SUM lets S-mode fetch from pages with U": UserFetchedByS,
    "U-mode needs no U": UserIgnored,
    "superpages need not be aligned": NotAligned,
    "a store sets D alone": DirtyAlone,
    "each access sets D": AlwaysDirty,
    "A and D are never set": NeverUpdated,
    "W without R is a leaf": WriteAlone,
    "V is ignored": InvalidFollowed,
    "the offset in a superpage has 12 bits": OffsetOfAPage,
    "each address is canonical": CanonicalIgnored,
    "a store's page fault has the cause of a load's": CauseOfALoad,
    "there are no leaves at level 2": TableOfLevelBelow,
}


def changed(made, text, wrong):
    """The answers of a program with a rule broken."""
    answers = text.split("\n")
    places = [at for at, wanted in enumerate(made.questions.wanted) if wanted is None]
    accesses = [(memory, access) for memory in made.memories for access in memory.accesses]
    for at, (memory, access) in zip(places, accesses):
        says = wrong(memory, made.profile).walked(access).outcomes
        if says != Hart(memory, made.profile).walked(access).outcomes:
            answers[at] = "; ".join(f"walk {told(outcome)}" for outcome in says)
    return "\n".join(answers)
