"""Writes random scripts for checks/linux, line by line, and asks the player at each. What Linux did says which slots, addresses and
processes there are, so it decides how the script goes on. What must be answered comes from the player alone."""
import re

from spaces import MAP_PRIVATE, MAP_SHARED, PAGE, PROT_EXEC, PROT_WRITE, RET, RIGHTS, Mapping, up
from stage import Stage

LONGEST_MAPPING = 1 << 20
# Arguments of mmap that are refused: length, protection, flags, file.
REFUSED = ((0, 3, 1, 0), (1048577, 1, 2, 0), (100, 0, 2, 0), (100, 8, 2, 0), (100, 1, 0, 0), (100, 1, 3, 0), (100, 1, 4, 0),
           (100, 1, 2, 15), (100, 1, 2, 1 << 40), (0, 0, 0, 99))


class Writer(Stage):
    """Writes one script."""

    # ---- accesses

    def chosen_place(self, space, kind, width):
        """An address that is granted, mostly one where something was stored."""
        if space.recent and self.chance(0.5) and kind != "fetch":
            return self.random.choice(space.recent) + self.pick(0, 0, 0, 1, -1, PAGE)
        if self.recent and self.chance(0.2):
            return self.random.choice(self.recent)
        return self.granted_place(space, RIGHTS[kind], width)

    def chosen_access(self, space):
        """The kind, the address and the width of an access; no address if there is none that fits."""
        kind = self.pick("load", "load", "load", "store", "store", "store", "fetch")
        width = self.pick(1, 1, 2, 4, 8, 8)
        is_doubtful = self.chance(0.05)
        if not is_doubtful:
            address = self.chosen_place(space, kind, width)
        elif self.chance(0.6):
            address = self.doubtful_place(space)
        elif self.chance(0.7):
            kind, address = self.denied_place(space)
        else:
            address = self.granted_place(space, self.pick("r", "w", "x"), width)
        width = 4 if kind == "fetch" else width
        if address is not None and not (is_doubtful and self.chance(0.4)):
            address -= address % width
        if address is None or address < 0 or not is_doubtful and not space.grants(kind, address):
            return kind, None, width
        # Denials end a process, so the only one is spared now and then.
        if is_doubtful and len(self.spaces) == 1 and self.chance(0.5):
            return kind, None, width
        return kind, address, width

    def value(self, space, address):
        """A value to store. Where it may be fetched, `ret` stays `ret`."""
        value = self.pick(self.random.getrandbits(8), self.random.getrandbits(64), (1 << 64) - 1, 0, self.random.getrandbits(32))
        region = space.region_at(address)
        if region and "x" in region.rights:
            value = value & ~(0xFF | 0xFF << 32) | RET | RET << 32
        return value

    def is_free(self, space, address, count):
        """Whether bytes may be used here: another process may be using the file."""
        return self.has("free-sharing") or not space.touches_frozen(address, count)

    def may_access(self, space, kind, address, width):
        page = address // PAGE
        has_room = page in space.settled or self.has_room(space.most_frames([page]))
        return self.is_free(space, address, width) and has_room and self.is_comparable(space, address, kind)

    def access(self, slot):
        """An access, its service, and the same access again."""
        space = self.spaces[slot]
        kind, address, width = self.chosen_access(space)
        if address is None or not self.may_access(space, kind, address, width):
            return
        fields = [kind, self.placed_on(slot, "user"), hex(address)]
        fields += [] if kind == "fetch" else [width]
        fields += [hex(self.value(space, address))] if kind == "store" else []
        if not self.tried(slot, fields, address):
            return
        if kind == "store":
            self.note_stored(space, address)
        elif self.chance(0.2):
            space.recent.append(address)

    def tried(self, slot, fields, address):
        """Says an access, `fix`, and the access again. Returns whether the process is still there."""
        self.say(*fields)
        told = self.playing.say(f"fix {fields[1]}")
        self.say(*fields)
        if told.kind.startswith("ended"):
            self.forget(slot)
            return False
        self.spaces[slot].settle([address // PAGE])
        return True

    def note_stored(self, space, address):
        space.recent.append(address)
        self.recent.append(address)
        del space.recent[:-40], self.recent[:-60]
        mapping = space.mapping_at(address)
        if mapping:
            stored = self.files[mapping.file].stored
            stored.append(mapping.offset_of(address))
            del stored[:-30]

    def look(self, slot, address):
        """Loads a byte, if that is granted."""
        space = self.spaces.get(slot)
        if space is None or not space.grants("load", address) or space.touches_frozen(address, 1):
            return
        if self.has_room(space.most_frames([address // PAGE])) and self.is_comparable(space, address, "load"):
            self.tried(slot, ["load", self.placed_on(slot, "user"), hex(address), 1], address)

    # ---- copies

    def copied_place(self, space, is_out, count):
        unreadable = [it for it in space.mappings if it.prot == PROT_EXEC]
        share = self.random.random()
        if share < 0.15:
            return self.doubtful_place(space)
        if share < 0.2 and unreadable:
            it = self.random.choice(unreadable)
            return self.pick(it.page * PAGE + self.below(it.pages * PAGE), it.page * PAGE - 5, it.end * PAGE - 5)
        if share < 0.5 and space.recent:
            return self.random.choice(space.recent) - self.below(20)
        return self.granted_place(space, "w" if is_out else "r", min(8, count) or 1)

    def may_copy(self, space, is_out, address, count):
        ends = [address, address + max(count, 1) - 1]
        if not self.is_free(space, address, max(count, 1)) or not self.has_room(space.most_frames({it // PAGE for it in ends})):
            return False
        return count == 0 or all(self.is_comparable(space, it, "store" if is_out else "load") for it in ends)

    def is_past_file(self, space, address):
        mapping = space.mapping_at(address)
        return mapping is not None and mapping.offset_of(address) // PAGE >= up(self.files[mapping.file].length)

    def copy(self, slot):
        """The kernel copies bytes to a process or from it, often over the end of a page."""
        space, is_out = self.spaces[slot], self.chance(0.5)
        count = self.pick(0, 1, 3, 8, 16, 33, 100, 256, self.below(257))
        address = self.copied_place(space, is_out, count)
        if address is None:
            return
        if self.chance(0.35):
            address = (address // PAGE + 1) * PAGE - self.below(max(1, count))
        address = max(0, address)
        if address + count >= 1 << 64 or not self.may_copy(space, is_out, address, count):
            return
        ends = (address, address + count)
        # Linux would store nothing past the end of the file, and the model does: later loads would differ.
        if is_out and self.has("linux-ends") and any(self.is_past_file(space, it) for it in ends):
            return
        hart = self.placed_on(slot, "kernel")
        if is_out:
            is_code = any((region := space.region_at(it)) and "x" in region.rights for it in ends)
            self.say("copyout", hart, hex(address), (bytes([RET] * count) if is_code else self.random.randbytes(count)).hex() or "-")
        else:
            self.say("copyin", hart, hex(address), count)
        space.settle(it // PAGE for it in ends if it < self.top and space.region_at(it))
        if is_out and count:
            self.note_stored(space, address)
            self.note_stored(space, address + count - 1)

    # ---- processes

    def started(self, slot_text, space):
        """Notes a new process if the answer names its slot."""
        found = re.fullmatch(r"slot (\d+)", slot_text)
        if found:
            self.spaces[int(found[1])] = space
        return bool(found)

    def start(self):
        image = self.below(len(self.images))
        if self.has_room(self.image_frames(image)):
            self.started(self.say("start", image), self.new_space(image))

    def fork(self, slot):
        space = self.spaces[slot]
        if not self.has_room(space.cost + 10):
            return
        hart, child = self.placed_on(slot, "kernel"), space.child()
        if self.started(self.say("fork", hart), child) and not self.has("free-sharing"):
            self.part(space, child, hart)

    def part(self, space, child, hart):
        """Of two processes that share a mapping to write, one goes on using it: in the model each has pages of its own."""
        for own, other in list(zip(space.mappings, child.mappings)):
            if not own.is_shared_to_write or own.is_frozen:
                continue
            if self.chance(0.5):
                other.is_frozen = True
                continue
            self.say("munmap", hart, hex(own.page * PAGE), own.pages * PAGE)
            space.mappings.remove(own)
            space.release(own.page, own.pages)

    def execute(self, slot):
        image = self.below(len(self.images))
        if not self.has_room(self.image_frames(image)):
            return
        self.say("exec", self.placed_on(slot, "kernel"), image)
        space = self.new_space(image)
        space.hart = self.spaces[slot].hart
        self.spaces[slot] = space

    def exit(self, slot):
        status = self.pick(0, 0, 1, -1, 255, 256, self.random.randrange(-(1 << 31), 1 << 31))
        self.say("exit", self.placed_on(slot, "kernel"), status)
        self.forget(slot)

    # ---- heap and mappings

    def change_of_heap(self, space):
        """By how many bytes a heap grows or shrinks: by some, to its base, to the lowest mapping, by far too many."""
        lowest = min([it.page * PAGE for it in space.mappings] + [self.trapframe])
        some = self.pick(0, 1, 8, 100, PAGE - 1, PAGE, PAGE + 1, 3 * PAGE, 1 + self.below(5 * PAGE))
        if space.size - space.base > 1 << 30 and self.chance(0.6):
            return space.base - space.size + self.below(4 * PAGE)
        share = self.random.random()
        if share < 0.3:
            return self.pick(some, some, some, 1 << 21, (1 << 21) + 1)
        if share < 0.55:
            return -some
        if share < 0.65:
            return space.base - space.size + self.pick(0, 0, 1, -1, PAGE, 5, -PAGE)
        if share < 0.72:
            return -(space.size - space.base) // 2
        if share < 0.8:
            return lowest - space.size + self.pick(0, 1, -1, -PAGE, 1 - PAGE, -2 * PAGE, PAGE, -3 * PAGE - 5)
        if share < 0.84:
            return self.pick(1 << 30, 1 << 33, 1 << 36, 1 << 62, (1 << 63) - 1, -(1 << 63), -(1 << 40))
        return up(space.size) * PAGE - space.size

    def sbrk(self, slot):
        space = self.spaces[slot]
        change = self.change_of_heap(space)
        # The middle of the addresses of Sv48 has no place in a process of Linux.
        lowest = min([it.page * PAGE for it in space.mappings] + [self.trapframe])
        if self.sv48 and 1 << 43 <= space.size + change <= lowest and space.base < 1 << 44:
            return
        if not self.say("sbrk", self.placed_on(slot, "kernel"), self.pick(str(change), hex(change))).startswith("old"):
            return
        if change < 0:
            space.release(up(space.size + change), up(space.size) - up(space.size + change))
        space.size += change
        space.recent += [max(0, space.size - 1 - self.below(8)), space.size + self.below(PAGE)]

    def users_of(self, file):
        """How many mappings of a file there are that may be stored to by sharing, and how many others."""
        found = [it.is_shared_to_write for space in self.spaces.values() for it in space.mappings if it.file == file]
        return found.count(True), found.count(False)

    def chosen_mapping(self):
        """File, flags and protection of a mapping; None if the file is not free. Unless sharing is free, a file that is mapped shared
        to write has no other mapping: in Linux its bytes would be seen there at once, in the model when it is unmapped."""
        number, self.mapped_again = self.below(len(self.files)) if self.mapped_again is None else self.mapped_again, None
        file, (writers, others) = self.files[number], self.users_of(number)
        flags = self.pick(MAP_SHARED, MAP_PRIVATE)
        execute_alone = (4, 4) if "keys" in self.abilities else ()
        prot = self.pick(1, 1, 2, 3, 3, 3, 3, 5, 6, 7, *execute_alone)
        is_writing = flags == MAP_SHARED and prot & PROT_WRITE
        if file.mode == "rw" and not self.has("free-sharing"):
            if is_writing and (not file.is_own or writers or others):
                flags, is_writing = MAP_PRIVATE, False
            if not is_writing and writers:
                return None
        if file.is_own and not is_writing and self.chance(0.4):
            return None
        return number, flags, prot

    def mmap(self, slot):
        space, again = self.spaces[slot], self.mapped_again
        if not self.files or self.chance(0.08):
            self.say("mmap", self.placed_on(slot, "kernel"), *self.pick(*REFUSED))
            return
        chosen = self.chosen_mapping()
        if chosen is None:
            return
        number, flags, prot = chosen
        length = self.files[number].length
        size = self.pick(1, length, length, length, length + 1 + self.below(2 * PAGE), 1 + self.below(6 * PAGE), PAGE, 3 * PAGE)
        if self.chance(0.04):
            size = self.pick(LONGEST_MAPPING, 1000000, 60 * PAGE)
        is_writing = flags == MAP_SHARED and prot & PROT_WRITE
        for _ in range(17 if self.chance(0.02) and not is_writing else 1):
            hart = self.placed_on(slot, "kernel")
            found = re.fullmatch(r"at 0x([0-9a-f]+)", self.say("mmap", hart, max(1, size), prot, flags, number))
            if not found:
                break
            space.mappings.append(Mapping(int(found[1], 16) // PAGE, up(max(1, size)), prot, flags, number))
            self.look_at_mapping(slot, space.mappings[-1], again is not None)

    def look_at_mapping(self, slot, mapping, is_again):
        """Loads what was stored through an earlier mapping; stores past the end of the file, which nobody keeps, and looks there
        when it is mapped again."""
        file = self.files[mapping.file]
        is_tail = mapping.is_shared_to_write and file.length % PAGE != 0
        tail = (file.length, file.length | 7, up(file.length) * PAGE - 1) if is_tail else ()
        if is_again:
            stored = self.random.sample(file.stored, min(4, len(file.stored)))
            for offset in (*stored, *tail):
                address = mapping.address_of(offset)
                if address is not None:
                    self.look(slot, address)
        elif is_tail and self.chance(0.7):
            self.store_past_end(slot, mapping, file)

    def store_past_end(self, slot, mapping, file):
        space, address = self.spaces[slot], mapping.address_of(file.length - 2)
        page = mapping.page + up(file.length) - 1
        if address is None or self.has("frames") or not self.has_room(space.most_frames([page])) or file.length < 3:
            return
        if mapping.address_of(file.length + 1) is None:
            return
        self.say("copyout", self.placed_on(slot, "kernel"), hex(address), bytes([RET] * 4).hex())
        for it in (address, address + 3):
            space.settle([it // PAGE])
            self.note_stored(space, it)

    def munmap_range(self, mapping):
        """The first page to unmap, and how many: all, one end, the middle, or more than there is."""
        page, pages = mapping.page, mapping.pages
        count = 1 + self.below(pages)
        ranges = [((page, pages), 43), ((page, count), 14), ((page + pages - count, count), 14),
                  ((page + (1 + self.below(pages - 2) if pages > 2 else self.below(pages)), 1), 8),
                  ((page, pages + 1), 4), ((page - 1, pages + 1), 3)]
        return self.random.choices([it for it, _ in ranges], [weight for _, weight in ranges])[0]

    def munmap(self, slot):
        space = self.spaces[slot]
        hart = self.placed_on(slot, "kernel")
        if not space.mappings or self.chance(0.07):
            address = self.pick(space.base, 0, self.trapframe, self.trapframe - PAGE, 0x1001, self.top, 1 << 50)
            self.say("munmap", hart, hex(address), self.pick(PAGE, 1, 0, 2 * PAGE))
            return
        mapping = self.random.choice(space.mappings)
        if self.chance(0.07):
            offset, length = self.pick((1, PAGE), (8, PAGE), (2048, PAGE), (0, 0))
            self.say("munmap", hart, hex(mapping.page * PAGE + offset), length)
            return
        page, pages = self.munmap_range(mapping)
        if self.say("munmap", hart, hex(page * PAGE), pages * PAGE - self.pick(0, 0, 1, 4095)) == "ok":
            self.shorten(space, space.mapping_at(page * PAGE), page, pages)

    def shorten(self, space, mapping, page, pages):
        space.release(page, pages)
        if self.chance(0.6):
            self.mapped_again = mapping.file
        if page == mapping.page:
            mapping.page += pages
            mapping.first += pages
        mapping.pages -= pages
        if mapping.pages == 0:
            space.mappings.remove(mapping)

    # ---- files

    def is_in_use(self, number):
        """Whether stored pages of a file are not yet written back in the model."""
        mappings = (it for space in self.spaces.values() for it in space.mappings)
        return not self.has("free-sharing") and any(it.file == number and it.is_shared_to_write and not it.is_frozen for it in mappings)

    def show(self):
        number = self.below(len(self.files)) if self.files else None
        if number is None or self.is_in_use(number):
            return
        length = self.files[number].length
        place = self.below(length + 10)
        offset = self.pick(0, max(0, length - 10), length, max(0, length - 200), place, place // PAGE * PAGE)
        self.say("show", number, offset, self.pick(256, 256, 100, 4, 0))

    def show_all(self):
        for number, file in enumerate(self.files):
            if not self.is_in_use(number):
                for offset in (*range(0, file.length, PAGE), max(0, file.length - 128)):
                    self.say("show", number, offset, 256)

    # ---- the script

    def step(self, slot):
        """One thing that a process does."""
        share = self.random.random()
        if share < 0.56:
            for _ in range(self.pick(1, 1, 2, 3)):
                if slot in self.spaces:
                    self.access(slot)
        elif share < 0.68:
            self.copy(slot)
        elif share < 0.76:
            self.sbrk(slot)
        elif share < 0.86 or self.mapped_again is not None:
            self.mmap(slot)
        elif share < 0.93 and (share < 0.9 or self.spaces[slot].mappings):
            self.munmap(slot)
        elif share < 0.955:
            self.fork(slot)
        elif share < 0.965:
            self.execute(slot)
        elif share < 0.978:
            self.show()
        elif share < 0.985 and len(self.spaces) > 1:
            self.exit(slot)
        else:
            self.free_hart(slot)

    def finish(self):
        """Each process looks at its recent places, most exit, and all files are shown."""
        for slot in sorted(self.spaces):
            for address in sorted(set(self.spaces[slot].recent[-12:])):
                self.look(slot, address)
        for slot in sorted(self.spaces):
            if self.chance(0.7):
                self.exit(slot)
        self.show_all()

    def write(self, playing):
        """Writes the script, and asks the player line by line."""
        self.playing = playing
        self.declare()
        self.start()
        for _ in range(self.random.randrange(40, 130)):
            if self.has("frames") and self.chance(0.18):
                self.say("audit")
            if not self.spaces or self.chance(0.015):
                self.start()
            if self.spaces:
                self.step(self.random.choice(sorted(self.spaces)))
        self.finish()
        playing.end()
