"""Each call once, and each error. What must come back is written here as numbers. The Mmu over the program is tried if XV6LAB is its path."""
import array
import os
import unittest

from xv6vm import Access, Granted, Hart, Leaf, Memory, Mmu, Mode, NoAnswer, Outcome, PmpWrite, Profile, ProgramFailed, Question, Reason
from xv6vm import Refusal, Refused, Regions, Request, Script, ScriptError, ScriptFault, Status, Step, Tlb, Translation, Update, Verdict, Walk
from xv6vm import mstatus, translate_by
from xv6vm._library import library

SV39 = 8 << 60 | 7 << 44 | 0x80001
SV48 = 9 << 60 | 7 << 44 | 0x80000
# A leaf of the frame at 0x80005000 for user loads and stores.
DATA = 0x80005 << 10 | 0xD7


def words():
    """Six frames: tables of levels 3 to 0, a spare one, and the page of 0x1000."""
    made = [0] * (6 * 512)
    for level in range(3):
        made[level * 512] = (0x80001 + level) << 10 | 1
    made[3 * 512 + 1] = DATA
    return made


def memory():
    return Memory(0x80000, words())


class Walks(unittest.TestCase):
    def test_translate(self):
        for satp in (SV39, SV48):
            it = memory()
            self.assertEqual(it.translate(satp, 0x1234, Access.LOAD, Mode.USER), Outcome(Status.LEAF, 0, DATA, 0x80005234, 0))
            self.assertEqual(it.translate(satp, 0x1234, Access.FETCH, Mode.USER), Outcome(Status.PAGE_FAULT, cause=12))
            self.assertEqual(it.translate(satp, 0x1234, Access.STORE, Mode.SUPERVISOR), Outcome(Status.PAGE_FAULT, cause=15))
            self.assertEqual(it.lookup(satp, 0x1234), Leaf(0, DATA, 0x80005234, False))
            self.assertIsNone(it.lookup(satp, 0x2000))
        self.assertEqual(it.translate(0, 0x1234, Access.LOAD, Mode.USER), Outcome(Status.BARE, address=0x1234))
        self.assertEqual(Memory(0x80000, 0).translate(SV39, 0, Access.STORE, Mode.USER), Outcome(Status.ACCESS_FAULT, cause=7))

    def test_no_answer(self):
        rows = [
            (Status.UNKNOWN, lambda it: it.translate(10 << 60, 0, Access.LOAD, Mode.USER)),
            (Status.UNKNOWN, lambda it: it.translate(SV39, 0, Access.LOAD, Mode.MACHINE)),
            (Status.UNKNOWN, lambda it: it.translate(SV39, 0, 7, Mode.USER)),
            (Status.BARE, lambda it: it.lookup(0, 0)),
            (Status.ACCESS_FAULT, lambda it: it.lookup(8 << 60, 0)),
            (Status.BARE, lambda it: Tlb(1).fill(it, 0, 0)),
        ]
        for status, call in rows:
            with self.assertRaises(NoAnswer) as caught:
                call(memory())
            self.assertEqual(caught.exception.status, status)

    def test_numbers(self):
        """What ctypes would cut off is refused."""
        for call in (
            lambda: memory().translate(1 << 64, 0, Access.LOAD, Mode.USER),
            lambda: memory().lookup(SV39, -1),
            lambda: Memory(0, [1 << 64]),
            lambda: Tlb(1).match(0, 0, 1 << 16),
            lambda: Hart().pmp(0, 256, 0),
            lambda: Hart().fence(None, 1 << 16),
            lambda: Request(0, 3, Access.LOAD, Mode.USER),
            lambda: Request(0, 4, Access.LOAD, 2),
            lambda: Update(4, 0),
            lambda: Profile(pmp_count=1),
            lambda: Profile(asid_bits=17),
            lambda: Mmu(0x80000000, 8),
            lambda: Mmu(0x80000000, 0x1000).mem(0x80001000, 0),
            lambda: Mmu(0x80000000, 0x1000).mem(0x80000004, 0),
            lambda: Memory.over(0x80000, bytearray(4)),
            lambda: translate_by(lambda at: 1 << 64, SV39, 0, Access.LOAD, Mode.USER),
            lambda: translate_by(lambda at: -1, SV39, 0, Access.LOAD, Mode.USER),
            lambda: translate_by(memory().read, 1 << 64, 0, Access.LOAD, Mode.USER),
            lambda: Walk(SV39, 0, Access.LOAD, Mode.USER).end(),
        ):
            self.assertRaises(ValueError, call)
        self.assertRaises(IndexError, lambda: memory()[0x80006000])
        self.assertRaises(TypeError, Memory, 0x80000, bytes(8))
        self.assertTrue(0x80005FFF in memory() and 0x80006000 not in memory())

    def test_lent(self):
        ram = array.array("Q", words())
        lent = Memory.over(0x80000, ram)
        ram[3 * 512 + 1] = 0
        self.assertEqual(lent.translate(SV39, 0x1234, Access.LOAD, Mode.USER), Outcome(Status.PAGE_FAULT, cause=13))


LEAF, ROOT = 0x80003008, 0x80001000
FETCH, LOAD, STORE = Access
CAUSES = {FETCH: 12, LOAD: 13, STORE: 15}


def walk(place, word, access=Access.LOAD, mode=Mode.USER):
    """Walks by Sv39 to 0x1234, with another word at a place."""
    it = memory()
    return translate_by(lambda at: word if at == place else it.read(at), SV39, 0x1234, access, mode)


def data(word, address):
    return Translation(Outcome(Status.LEAF, 0, word, address))


class Readers(unittest.TestCase):
    """Walks over memory of any kind. What must come back is worked out by hand from the standard's 4.3.2."""

    def test_steps(self):
        rows = [
            # V is clear; W without R; bit 54 is reserved
            (Step.INVALID, LEAF, 0, LOAD, Mode.USER),
            (Step.INVALID, LEAF, DATA & ~1, LOAD, Mode.USER),
            (Step.INVALID, LEAF, DATA & ~2, LOAD, Mode.USER),
            (Step.INVALID, LEAF, DATA | 1 << 54, STORE, Mode.USER),
            (Step.INVALID, ROOT, 1 << 63 | 0x80002 << 10 | 1, FETCH, Mode.USER),
            (Step.NO_LEAF, LEAF, 0x80004 << 10 | 1, STORE, Mode.USER),
            # no X; U in supervisor mode with SUM = 0; no U in user mode; no W
            (Step.NOT_GRANTED, LEAF, DATA, FETCH, Mode.USER),
            (Step.NOT_GRANTED, LEAF, DATA, LOAD, Mode.SUPERVISOR),
            (Step.NOT_GRANTED, LEAF, DATA & ~0x10, LOAD, Mode.USER),
            (Step.NOT_GRANTED, LEAF, DATA & ~4, STORE, Mode.USER),
            # 0x80001 is no multiple of 2^18: after rights, and before A
            (Step.MISALIGNED, ROOT, 0x80001 << 10 | 0xD7, LOAD, Mode.USER),
            (Step.MISALIGNED, ROOT, 0x80001 << 10 | 0x97, LOAD, Mode.USER),
            (Step.NOT_GRANTED, ROOT, 0x80001 << 10 | 0xD7, LOAD, Mode.SUPERVISOR),
            (Step.NOT_MARKED, LEAF, DATA & ~0x40, LOAD, Mode.USER),
            (Step.NOT_MARKED, LEAF, DATA & ~0x80, STORE, Mode.USER),
        ]
        for step, place, word, access, mode in rows:
            fault = Translation(Outcome(Status.PAGE_FAULT, cause=CAUSES[access]), Reason(step, 2 if place == ROOT else 0, place, word))
            self.assertEqual(walk(place, word, access, mode), fault)
        for word in (DATA, DATA & ~0x80):
            self.assertEqual(walk(LEAF, word), data(word, 0x80005234))
        superpage = 0x80000 << 10 | 0xD7
        self.assertEqual(walk(ROOT, superpage), Translation(Outcome(Status.LEAF, 2, superpage, 0x80001234)))

    def test_outside(self):
        pointer, far = 0x90000 << 10 | 1, 0x90000 << 10 | 0xD7
        rows = [
            (walk(0x80002000, pointer, STORE), 7, Reason(Step.TABLE_OUTSIDE, 0, 0x90000008, pointer)),
            (translate_by(memory().read, 8 << 60 | 0x70000, 3 << 30, FETCH, Mode.USER), 1, Reason(Step.TABLE_OUTSIDE, 2, 0x70000018)),
            (walk(LEAF, far), 5, Reason(Step.BYTE_OUTSIDE, 0, LEAF, far, 0x90000234)),
        ]
        for got, cause, reason in rows:
            self.assertEqual(got, Translation(Outcome(Status.ACCESS_FAULT, cause=cause), reason))

    def test_questions(self):
        """What is asked for, in order; and nothing, if the address is not canonical."""
        places = [0x80000000, ROOT, 0x80002000, LEAF, 0x80005230]
        refused = Translation(Outcome(Status.PAGE_FAULT, cause=13), Reason(Step.NOT_CANONICAL))
        top = (1 << 64) - 1
        rows = [(satp, 0x1234, data(DATA, 0x80005234), wanted) for satp, wanted in ((SV39, places[1:]), (SV48, places))]
        rows += [(SV39, it, refused, []) for it in (1 << 38, 1 << 63, top << 38 & top ^ 1 << 50)]
        rows += [(SV48, 1 << 47, refused, []), (0, top, Translation(Outcome(Status.BARE, address=top)), [])]
        for satp, address, wanted, asked in rows:
            it, got = memory(), []
            self.assertEqual(translate_by(lambda at: got.append(at) or it.read(at), satp, address, LOAD, Mode.USER), wanted)
            self.assertEqual(got, asked)
        for satp, access, mode in ((10 << 60, LOAD, Mode.USER), (SV39, LOAD, Mode.MACHINE), (SV39, 7, Mode.USER)):
            with self.assertRaises(NoAnswer) as caught:
                translate_by(memory().read, satp, 0, access, mode)
            self.assertEqual(caught.exception.status, Status.UNKNOWN)

    def test_regions(self):
        tables, rest = Memory(0x80000, words()[: 3 * 512]), Memory(0x80003, words()[3 * 512 :])
        both = Regions(rest, tables)
        self.assertEqual(both.translate(SV48, 0x1FFF, STORE, Mode.USER), data(DATA, 0x80005FFF))
        self.assertEqual((both.read(LEAF + 7), both.read(0x80006000), both.read(0x7FFFFFF8)), (DATA, None, None))
        gone = Reason(Step.TABLE_OUTSIDE, 0, LEAF, 0x80003 << 10 | 1)
        self.assertEqual(Regions(tables).translate(SV39, 0x1234, LOAD, Mode.USER).reason, gone)
        covered = Regions(Memory(0x80003, [0, DATA & ~0x40]), rest, tables)
        self.assertEqual(covered.translate(SV39, 0x1234, LOAD, Mode.USER).reason, Reason(Step.NOT_MARKED, 0, LEAF, DATA & ~0x40))
        self.assertEqual(Regions().translate(SV39, 0, LOAD, Mode.USER).outcome, Outcome(Status.ACCESS_FAULT, cause=5))

    def test_errors_of_a_reader(self):
        self.assertRaises(ZeroDivisionError, lambda: translate_by(lambda at: 1 // 0, SV39, 0, LOAD, Mode.USER))

    def test_by_hand(self):
        it = Walk(SV39, 0x1234, STORE, Mode.USER)
        for place, word in ((ROOT, 0x80002 << 10 | 1), (0x80002000, 0x80003 << 10 | 1), (LEAF, DATA), (0x80005230, None)):
            self.assertEqual(it.asked, place)
            it.tell(word)
        end = Translation(Outcome(Status.ACCESS_FAULT, cause=7), Reason(Step.BYTE_OUTSIDE, 0, LEAF, DATA, 0x80005234))
        self.assertEqual((it.asked, it.end()), (None, end))
        it.tell(0)
        self.assertEqual(it.end(), end)


class Tlbs(unittest.TestCase):
    def test_questions_by_name(self):
        fault, old = Outcome(Status.PAGE_FAULT, cause=13), Outcome(Status.LEAF, 0, DATA, 0x80005234)
        it, tlb = memory(), Tlb(2)
        ask = Question(it, SV39, 0x2234, LOAD, Mode.USER)
        self.assertEqual([tlb.permits_of(ask, fault), tlb.permits_of(ask, old)], [True, False])
        # an entry for 0x2000 that has the leaf of 0x1000
        place = tlb.entries()[0]
        place.address, place.word, place.asid, place.kind = 0x2000, DATA, 7, 1
        self.assertEqual([tlb.permits_of(ask, fault), tlb.permits_of(ask, old)], [True, True])
        others = [Question(it, SV39, 0x3234, LOAD, Mode.USER), Question(it, SV39 ^ 1 << 44, 0x2234, LOAD, Mode.USER)]
        self.assertEqual([tlb.permits_of(other, old) for other in others], [False, False])
        self.assertFalse(tlb.permits_of(Question(it, SV39, 0x2234, STORE, Mode.USER), fault))

    def test_calls(self):
        it, tlb = memory(), Tlb(4)
        tlb.fill(it, SV39, 0x1000)
        tlb.fill(it, SV39, 0x2000)
        self.assertEqual([tlb.match(0, 0x1FFF, 7), tlb.match(3, 0x1FFF, 7), tlb.match(0, 0x1FFF, 8)], [2, None, None])
        it[0x80003008] = 0
        stale = Outcome(Status.LEAF, 0, DATA, 0x80005234)
        self.assertEqual(tlb.use(2, 0x1234, 7, Access.LOAD, Mode.USER), stale)
        self.assertEqual(tlb.use(0, 0x1234, 7, Access.LOAD, Mode.USER), Outcome(Status.NO_ENTRY))
        self.assertTrue(tlb.permits(it, SV39, 0x1234, Access.LOAD, Mode.USER, stale))
        tlb.fence(0x1000, 8)
        self.assertTrue(tlb.permits(it, SV39, 0x1234, Access.LOAD, Mode.USER, stale))
        tlb.fence(0x1FFF)
        self.assertFalse(tlb.permits(it, SV39, 0x1234, Access.LOAD, Mode.USER, stale))
        tlb.fill(it, SV39, 0x2000)
        self.assertEqual([entry.kind for entry in tlb.entries()], [0, 0, 0, 2])
        tlb.evict(3)
        self.assertEqual([entry.kind for entry in tlb.entries()], [0, 0, 0, 0])


class Harts(unittest.TestCase):
    def test_events_grow(self):
        hart = Hart(Profile(sv48=False, pmp_count=16))
        self.assertEqual([hart.satp(SV48), hart.satp(SV39)], [False, True])
        for _ in range(100):
            hart.mem(0x80004000, 0, 0)
        hart.pmp(0, 0x1F, (1 << 54) - 1)
        hart.fence(0x1000, 7)
        self.assertEqual(hart.events, 103)
        hart.fence()
        self.assertEqual(hart.events, 0)

    def test_updates(self):
        """A hart that sets A and D itself. The leaf lacks both."""
        it, hart = memory(), Hart(Profile(svade=False, svadu=True))
        it[0x80003008] = DATA & ~0xC0
        hart.satp(SV39)
        hart.fence()
        outcome = Granted(0x80005238, update=Update(0x80003008, DATA))
        store = Request(0x1238, 4, Access.STORE, Mode.USER)
        self.assertEqual(hart.outcomes(it, store), {outcome})
        self.assertTrue(hart.judge(it, store, outcome))
        self.assertFalse(hart.judge(it, store, Granted(0x80005238)))
        hart.status(mstatus(sum=True))
        load = Request(0x1238, 4, Access.LOAD, Mode.SUPERVISOR)
        self.assertEqual(hart.outcomes(it, load), {Granted(0x80005238, update=Update(0x80003008, DATA & ~0x80))})
        self.assertEqual(hart.outcomes(it, Request(0x1239, 4, Access.STORE, Mode.USER)), {Refused(6)})


@unittest.skipUnless(library().has_play, "the library was linked with --walks")
class Scripts(unittest.TestCase):
    SCRIPT = "image 0x1000:0x1000:rw:61\nboot 1 64 1 full\nstart 0\non 0 0\nload 0 0x1000 1\n"

    def test_play(self):
        self.assertEqual(Script(self.SCRIPT).play(), "ok\nslot 0\nok\nvalue 0x61\n")
        self.assertEqual(Script(self.SCRIPT.encode() + b"load 0 0x1000 1\n" * 2000).play().count("value"), 2001)
        with self.assertRaises(ScriptError) as caught:
            Script(self.SCRIPT.replace("load", "laod")).play()
        self.assertEqual((caught.exception.line, caught.exception.cause), (5, ScriptFault.WORD))


class Mmus(unittest.TestCase):
    PROGRAM = os.environ.get("XV6LAB")

    def mmus(self, **more):
        for program in [None, self.PROGRAM] if self.PROGRAM else [None]:
            with self.subTest(program=program), Mmu(0x80000000, 0x6000, words=words(), program=program, **more) as mmu:
                yield mmu

    def test_history(self):
        load = Request(0x1238, 8, Access.LOAD, Mode.USER)
        for mmu in self.mmus():
            self.assertEqual([mmu.satp(SV39), mmu.satp(1 << 60), mmu.satp(5)], [SV39] * 3)
            mmu.fence()
            mmu.mem(0x80003008, 0)
            self.assertEqual(mmu.outcomes(load), {Granted(0x80005238), Refused(13)})
            self.assertTrue(mmu.judge(load, Granted(0x80005238)))
            mmu.fence(0x1000, 7)
            verdict = mmu.judge(load, Granted(0x80005238))
            self.assertEqual((bool(verdict), verdict.outcomes), (False, {Refused(13)}))
            mmu.status(mprv=True, mpp=Mode.SUPERVISOR)
            self.assertEqual(mmu.outcomes(Request(0x80000000, 8, Access.LOAD, Mode.MACHINE)), {Refused(13)})

    def test_updates(self):
        """A permitted outcome that sets D is stored."""
        store, outcome = Request(0x1238, 8, Access.STORE, Mode.USER), Granted(0x80005238, update=Update(0x80003008, DATA))
        for mmu in self.mmus(profile=Profile(svade=False, svadu=True)):
            mmu.mem(0x80003008, DATA & ~0x80)
            mmu.satp(SV39)
            mmu.fence()
            self.assertEqual(mmu.judge(store, outcome), Verdict(True, None, frozenset([outcome])))
            mmu.fence()
            self.assertEqual(mmu.outcomes(store), {Granted(0x80005238)})

    def test_locks(self):
        for mmu in self.mmus(profile=Profile(pmp_count=16, asid_bits=0)):
            answers = [mmu.pmp(2, 0x8F, (1 << 54) - 1), mmu.pmp(1, 0, 5), mmu.pmp(2, 0, 0), mmu.pmp(0, 0x1F, 1)]
            self.assertEqual(answers, [PmpWrite.WRITTEN, PmpWrite.ADDRESS_LOCKED, PmpWrite.LOCKED, PmpWrite.WRITTEN])
            self.assertEqual(mmu.satp(SV39), SV39 & ~(7 << 44))

    def test_program(self):
        self.assertRaises(ProgramFailed, Mmu, 0x80000000, 0x1000, program="/nowhere/xv6lab")
        self.assertRaises(ProgramFailed, Mmu, 0x80000000, 0x1000, program="true")
        if self.PROGRAM:
            with Mmu(0x80000000, 0x1000, program=self.PROGRAM) as mmu:
                self.assertRaises(Refusal, mmu.outcomes, Request(0, 8, Access.FETCH, Mode.USER))
                self.assertIsInstance(mmu.judge(Request(0, 8, Access.LOAD, Mode.USER), Granted(0)).reason, str)


if __name__ == "__main__":
    unittest.main()
