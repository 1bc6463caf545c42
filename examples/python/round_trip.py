"""The ground secures a telecommand frame and the spacecraft checks it; a replay is refused; both restart and go on."""

import sys

import xistalvo

SPI, SEND, RECEIVE = 9, 1, 2


def build_image(direction):
    """An image with one association: service 2 (authenticated encryption) for TC frames of spacecraft 27, virtual channel 5."""
    contents = bytes([1, 1]) + SPI.to_bytes(2, "big") + (6).to_bytes(2, "big")  # version, count; SPI, position of the body
    body = bytes([2, xistalvo.TC, direction, 2])  # service, kind, direction, state: operational
    body += (27).to_bytes(2, "big") + bytes([5, 0])  # spacecraft, virtual channel, MAP
    body += (100).to_bytes(2, "big")  # window
    body += bytes([0xFF] * 5 + [0])  # header mask: the MAC covers all five octets
    body += bytes(range(32))  # the key; a real one comes from the key office
    body += bytes(4)  # the mark is 0 in a new image
    return contents + body


def load(end, name):
    print(f"{name}: {end.load()}; the last number is {end.numbers[0]}")


def secure(ground, data):
    frame = bytes([0, 27, 5 << 2, 5 + len(data) - 1, 0]) + data  # the length field is the length less one
    result = ground.secure(xistalvo.DESK_1, xistalvo.TC, SPI, frame)
    print(f"secure: {result}; number {ground.numbers[0]}, stores {result.stores}, frame {result.octets.hex(' ').upper()}")
    return result.octets


def check(space, what, frame):
    result = space.check(xistalvo.DESK_1, xistalvo.TC, frame)
    print(f"{what}: {result}; stores {result.stores}, data '{result.octets.decode()}'")


def main():
    module = xistalvo.Module(sys.argv[1])
    ground = xistalvo.End(module, build_image(SEND))
    space = xistalvo.End(module, build_image(RECEIVE))
    load(ground, "load on the ground")
    load(space, "load on the spacecraft")

    frame = secure(ground, b"HEAT 1200")
    check(space, "check", frame)
    check(space, "the same frame again", frame)

    load(ground, "load on the ground")  # a restart: the numbers were lost, the image was not
    frame = secure(ground, b"HEAT 1250")
    check(space, "check", frame)

    load(space, "load on the spacecraft")  # the spacecraft restarts too, and still knows the frame
    check(space, "the same frame again", frame)

    result = space.command(xistalvo.DESK_1, xistalvo.READ_NUMBER, SPI.to_bytes(2, "big"))  # over a link, it is what a check released
    print(f"read number: {result}; reply {result.octets.hex(' ').upper()}")
    print(f"report of desk 1: {space.report(xistalvo.DESK_1).hex(' ').upper()}; events kept {space.notes.kept}")


main()
