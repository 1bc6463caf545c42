"""The link security module from Python, by ctypes. The shared object is linked from the module's archive (see the script `run`)."""

import ctypes

NUMBERS = 32
EVENTS_LENGTH = 768  # a list with room for 256 events of 3 octets
LARGEST_FRAME = 2048
TC, TC_SEGMENT, TM, AOS = 1, 2, 3, 4
KEY_OFFICE, DESK_1, DESK_2 = 0, 1, 2

ANSWERS = {
    0: "done",
    1: "image breaks a rule",
    2: "numbers do not agree with the marks",
    3: "frame breaks a rule of its kind",
    4: "no association matches",
    5: "secured frame too short",
    6: "output too short",
    7: "MAC differs",
    8: "number outside the window",
    10: "numbers used up",
    11: "secured frame would be too long",
    12: "check field differs",
    13: "no such command, or of another length",
    14: "no association has the SPI",
    15: "state does not allow the command",
    16: "value not allowed",
    17: "no key has the ID",
    18: "state of the key, or its use, does not allow the command",
    19: "no such desk, or not a command of that desk",
}

# Management commands by their tags: tag, length of the value in 2 octets, value.
START, STOP, REKEY, EXPIRE, SET_NUMBER, SET_WINDOW = 0x1B, 0x1E, 0x16, 0x19, 0x1A, 0x15
STATUS, READ_NUMBER, PING = 0x1F, 0x10, 0x31
ACTIVATION, DEACTIVATION, INVENTORY = 0x02, 0x03, 0x07
DUMP, ERASE, ALARM_RESET = 0x33, 0x34, 0x37
LARGEST_REPLY = 1283


class Notes(ctypes.Structure):
    """The reports of desks 0, 1 and 2, four octets each, and how many events are kept and dropped. The events stand in a list beside it."""

    _fields_ = [("reports", ctypes.c_uint8 * 12), ("kept", ctypes.c_uint32), ("dropped", ctypes.c_uint32)]


class Result:
    """What a call returned: the answer, the octets stored in the image, and the result's octets."""

    def __init__(self, packed, output=b""):
        self.answer = (packed >> 40) & 0xFF
        self.stores = (packed >> 32) & 0xFF
        self.octets = bytes(output[: packed & 0xFFFFFFFF])

    def __str__(self):
        return f"{self.answer}, {ANSWERS[self.answer]}"


class Module:
    """The functions of a shared object."""

    def __init__(self, path):
        library = ctypes.CDLL(path)
        buffer, size, numbers = ctypes.POINTER(ctypes.c_uint8), ctypes.c_size_t, ctypes.POINTER(ctypes.c_uint32)
        desk, kind, check_field, spi = ctypes.c_uint8, ctypes.c_uint8, ctypes.c_uint8, ctypes.c_uint16
        notes = ctypes.POINTER(Notes)
        self._fresh_notes = library.xistalvo_fresh_notes
        self._fresh_notes.argtypes, self._fresh_notes.restype = [notes], None
        self._load = library.xistalvo_load
        self._load.argtypes = [buffer, size, numbers, size]
        self._secure = library.xistalvo_secure
        self._secure.argtypes = [buffer, size, numbers, size, desk, kind, check_field, spi, buffer, size, buffer, size]
        self._check = library.xistalvo_check
        self._check.argtypes = [notes, buffer, size, buffer, size, numbers, size, desk, kind, check_field, buffer, size, buffer, size]
        self._command = library.xistalvo_command
        self._command.argtypes = [notes, buffer, size, buffer, size, numbers, size, desk, buffer, size, buffer, size]
        for function in (self._load, self._secure, self._check, self._command):
            function.restype = ctypes.c_uint64


class End:
    """One end of a link: an image, which has to outlive a loss of power, and its managed numbers and notes, which need not."""

    def __init__(self, module, image):
        self.module = module
        self.image = (ctypes.c_uint8 * len(image))(*image)
        self.numbers = (ctypes.c_uint32 * NUMBERS)()
        self.notes, self.events = Notes(), (ctypes.c_uint8 * EVENTS_LENGTH)()
        module._fresh_notes(self.notes)

    def load(self):
        """Makes the numbers from the image. Every load is a restart."""
        return Result(self.module._load(self.image, len(self.image), self.numbers, NUMBERS))

    def secure(self, desk, kind, spi, frame, check_field=False):
        """The secured frame, in the result's octets. It ends in a check field if the clear one does."""
        lent, output = (ctypes.c_uint8 * len(frame))(*frame), (ctypes.c_uint8 * LARGEST_FRAME)()
        packed = self.module._secure(
            self.image, len(self.image), self.numbers, NUMBERS, desk, kind, check_field, spi, lent, len(frame), output, LARGEST_FRAME
        )
        return Result(packed, output)

    def check(self, desk, kind, frame, check_field=False):
        """The clear data, in the result's octets."""
        lent, output = (ctypes.c_uint8 * len(frame))(*frame), (ctypes.c_uint8 * LARGEST_FRAME)()
        packed = self.module._check(
            self.notes, self.events, EVENTS_LENGTH, self.image, len(self.image), self.numbers, NUMBERS, desk, kind, check_field,
            lent, len(frame), output, LARGEST_FRAME,
        )
        return Result(packed, output)

    def report(self, desk):
        """The frame security report of a desk, as it rides in an operational control field."""
        return bytes(self.notes.reports[4 * desk : 4 * desk + 4])

    def command(self, desk, tag, value=b""):
        """Carries out a management command; the reply, if it has one, is in the result's octets."""
        octets = bytes([tag]) + len(value).to_bytes(2, "big") + value
        lent, output = (ctypes.c_uint8 * len(octets))(*octets), (ctypes.c_uint8 * LARGEST_REPLY)()
        packed = self.module._command(
            self.notes, self.events, EVENTS_LENGTH, self.image, len(self.image), self.numbers, NUMBERS, desk, lent, len(octets), output,
            LARGEST_REPLY,
        )
        return Result(packed, output)
