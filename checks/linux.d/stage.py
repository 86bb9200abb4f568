"""What a random script for checks/linux is made of: how it is played, files and images, harts, frames, and addresses."""
import random

from spaces import MAP_SHARED, PAGE, RET, RIGHTS, File, Segment, Space, up

FRAMES = 1024
# Scripts take fewer frames than there are: Linux has more, so `9 NoFrame` is not compared.
SPARE_FRAMES = 39
LENGTHS = (0, 1, 7, 16, 100, 4095, 4096, 4097, 5000, 8191, 8192, 8200)
IMAGE_PAGES = (0, 0, 0, 1, 2, 0x10, 0x1FE, 0x1FF, 0x200, 0x3FFFF, 0x40000)


class Stage:
    """What one script is about. `playing` is the player that is asked, once it is decided how that plays."""

    def __init__(self, seed, abilities):
        self.random, self.abilities = random.Random(seed), abilities
        self.options = self.chosen_options()
        self.playing = None
        self.sv48 = self.chance(0.15)
        self.top = 1 << (47 if self.sv48 else 38)
        self.trapframe = self.top - 2 * PAGE
        self.spaces, self.recent, self.mapped_again = {}, [], None

    def chance(self, share):
        return self.random.random() < share

    def pick(self, *choices):
        return self.random.choice(choices)

    def below(self, limit):
        return self.random.randrange(limit)

    def chosen_options(self):
        """How Linux plays the script: the words of the player (setup in player.h)."""
        options = []
        if self.chance(0.5) or "heap" not in self.abilities:
            options.append("map-heap")
        if self.chance(0.1):
            options.append("free-sharing")
        elif self.chance(0.12):
            options.append("linux-ends")
        elif self.chance(0.4) and {"scan", "numbers"} <= self.abilities:
            options.append("frames")
        return options

    def has(self, option):
        return option in self.options

    def say(self, *fields):
        """Adds a line. Returns what the model must answer, as far as Linux decides it."""
        return self.playing.say(" ".join(map(str, fields))).expected[0].partition("=")[2]

    # ---- declarations

    def data(self, count, is_code):
        """Random bytes; those of code are `ret` wherever a fetch may be."""
        data = bytearray(self.random.randbytes(count))
        if is_code:
            data[::4] = bytes([RET]) * len(data[::4])
        return bytes(data)

    def declare_file(self):
        length = self.pick(*LENGTHS, 1 + self.below(20000), 1 + self.below(65536))
        is_own = self.chance(0.6)
        mode = "rw" if is_own else self.pick("rw", "ro")
        code = min(length, self.pick(0, 2, 64, 300, length))
        self.files.append(File(length, mode, is_own, code))
        self.playing.declare(f"file {length} {mode} {self.data(code, self.chance(0.5)).hex() or '-'}")

    def segment(self, page, pages):
        size = pages * PAGE - self.pick(0, 0, 1, 8, self.below(PAGE))
        flags = self.pick("rw", "rw", "rw", "w", "rx", "x", "r", "-", "rwx")
        lengths = (4, 64, 256, 1000, PAGE, PAGE + 64) if "x" in flags else (0, 4, 8, 16, 32, 64, 64, 256, PAGE, PAGE + 8)
        return Segment(page, pages, flags, size, self.data(min(size, self.pick(*lengths)), "x" in flags))

    def image(self):
        """Segments in ascending order, some by a border of tables, some just below the trapframe."""
        last = self.trapframe // PAGE
        is_high = self.chance(0.12)
        page = last - 6 - self.below(34) if is_high else self.pick(*IMAGE_PAGES, self.below(1 << 12), self.below(1 << 25))
        gaps = (0, 0, 0, 1, 2, 3) if is_high else (0, 0, 0, 1, 2, 3, 0x1FF, 0x200, 0x40000)
        segments = []
        for _ in range(1 + self.below(4)):
            pages = self.pick(1, 1, 1, 2, 2, 3)
            if sum(it.pages for it in segments) + pages > 9 or page + pages + 2 > last:
                break
            segments.append(self.segment(page, pages))
            page += pages + self.pick(*gaps)
        return segments or self.image()

    def declare(self):
        self.files = []
        for _ in range(self.pick(0, 1, 2, 2, 3, 4)):
            self.declare_file()
        self.images = [self.image() for _ in range(1 + self.below(3))]
        for segments in self.images:
            self.playing.declare("image " + " ".join(it.field() for it in segments))
        harts, slots = self.pick(1, 1, 2, 2, 3, 4, 8), self.pick(2, 3, 4, 6, 8, 8)
        self.placed, self.phases = [None] * harts, ["idle"] * harts
        self.budget = FRAMES - slots - SPARE_FRAMES
        scheme = ["sv48"] if self.sv48 else self.pick([], ["sv39"])
        self.say("boot", harts, FRAMES, slots, self.pick("full", "full", "asid"), *scheme)

    def new_space(self, image):
        return Space(4 if self.sv48 else 3, self.images[image])

    # ---- frames

    def has_room(self, count):
        return sum(it.cost for it in self.spaces.values()) + count <= self.budget

    def image_frames(self, number):
        return 16 + 4 * sum(it.pages for it in self.images[number])

    def is_comparable(self, space, address, kind):
        """Where frames are compared, a page is first stored to, and is private: so Linux gives it a frame of its own."""
        if not self.has("frames") or address // PAGE in space.settled or not space.grants(kind, address):
            return True
        mapping = space.mapping_at(address)
        return kind == "store" and not (mapping and mapping.flags == MAP_SHARED)

    # ---- scheduling

    def placed_on(self, slot, phase):
        """Brings a process onto a hart, into user mode or into the kernel. Returns the hart."""
        space = self.spaces[slot]
        hart = space.hart
        if hart is None:
            hart = self.below(len(self.placed))
            self.take_hart(hart, slot, phase)
        elif self.phases[hart] != phase:
            self.say("leave" if phase == "user" else "enter", hart)
        self.phases[hart] = phase
        return hart

    def take_hart(self, hart, slot, phase):
        if self.phases[hart] == "user":
            self.say("enter", hart)
        if self.placed[hart] is not None:
            self.spaces[self.placed[hart]].hart = None
        self.placed[hart], self.spaces[slot].hart = slot, hart
        self.say("on" if phase == "user" else "switch", hart, slot)

    def free_hart(self, slot):
        hart = self.spaces[slot].hart
        if hart is None:
            return
        if self.phases[hart] == "user":
            self.say("enter", hart)
        self.say("switch", hart, "-")
        self.placed[hart], self.phases[hart], self.spaces[slot].hart = None, "idle", None

    def forget(self, slot):
        """A process ended."""
        hart = self.spaces.pop(slot).hart
        if hart is not None:
            self.placed[hart], self.phases[hart] = None, "idle"

    # ---- places

    def granted_place(self, space, right, width):
        """An address in a region that grants a right; None if there is none."""
        regions = [it for it in space.regions() if right in it.rights and not it.is_frozen]
        if not regions:
            return None
        region = self.random.choice(regions)
        last = region.pages - 1
        page = region.page + self.below(region.pages)
        if region.pages > 64:
            page = region.page + self.pick(0, last, self.below(region.pages), last - self.below(3), self.below(4))
        if right == "x" and self.chance(0.85):
            code = self.code_of(region)
            if code >= 4:
                return region.page * PAGE + self.pick(self.below(code), code - 4, min(code, PAGE) - 4)
        found = self.file_place(region.mapping) if region.mapping else None
        if found is not None:
            return found
        return page * PAGE + self.pick(0, 8, PAGE - 8, PAGE - width, PAGE - width, self.below(PAGE), self.below(PAGE), self.below(64))

    def code_of(self, region):
        """How many bytes of code a region begins with."""
        return region.code if region.mapping is None else self.files[region.mapping.file].code - region.mapping.first * PAGE

    def file_place(self, mapping):
        """A place of the file where a process stored, or around its end; None if there is none, and at times."""
        file = self.files[mapping.file]
        if file.stored and self.chance(0.35):
            return mapping.address_of(self.random.choice(file.stored))
        return mapping.address_of(file.length - 9 + self.below(18)) if self.chance(0.3) else None

    def past_top(self):
        bits = 47 if self.sv48 else 44
        return self.top + self.pick(0, 8, self.below(1 << 20), self.below(1 << bits), 1 << 47, (1 << 63) + self.below(1 << 40))

    def beside(self, page, pages, near):
        """An address just before pages, or just past them."""
        return max(0, self.pick(page * PAGE - 1 - self.below(near - 1), (page + pages) * PAGE + self.below(near)))

    def doubtful_place(self, space):
        """An address that is mostly denied."""
        segment = self.random.choice(space.segments)
        mapping = self.random.choice(space.mappings) if space.mappings else None
        places = [
            space.guard * PAGE + self.below(PAGE),
            up(space.size) * PAGE + self.pick(0, 0, 8, PAGE - 8, self.below(PAGE)),
            self.trapframe + self.below(2 * PAGE),
            self.past_top(),
            self.trapframe - 1 - self.below(3 * PAGE),
            self.beside(segment.page, segment.pages, PAGE),
            self.beside(mapping.page, mapping.pages, 64) if mapping else space.size + self.below(2 * PAGE),
            self.below(1 << 38),
            space.size + self.below(2 * PAGE),
        ]
        return self.random.choice(places)

    def denied_place(self, space):
        """A kind of access, and an address in a region that does not grant it."""
        denied = [(kind, region) for region in space.regions() for kind, right in RIGHTS.items()
                  if right not in region.rights and not region.is_frozen]
        if not denied:
            return None, None
        kind, region = self.random.choice(denied)
        address = region.page * PAGE + self.below(region.pages * PAGE)
        return kind, address if self.chance(0.1) else address - address % 8
