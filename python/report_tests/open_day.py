"""The example of the open day: the select rises during the last byte of the channel, then a transfer is sent.

Run as a program, it writes examples/open-day.sr."""
import os

from report_tests import made

CHANNELS = ['FAN', 'SDIO', 'LOCK', 'SCLK', 'D4', 'CSB', 'SDO', 'LAMP']
RATE = '2 MHz'


def samples():
    """The set-up as a master sends it, at ten samples for half a bit, with a pause of a person in it."""
    frames = [made.write(*made.RESET), made.read(0x0006, 0x01, 0x12, 0x34, 0x05), made.write(0x000A, 0x55), made.read(0x000A, 0x55),
              made.write(0x0016, 0x0B), made.write(0x0018, 0x5A), made.write(0x001A, 0x20), made.write(0x0021, 0x02, 0x05),
              made.write(0x0022, 0x3C), made.write(0x0024, 0xB4), made.write(0x0014, 0x17, 0x4E, 0x9A),
              made.cut(made.write(0x0011, 0x01, 0x2D), 16 + 8 + 5), made.write(*made.TRANSFER)]
    checked = [made.read(0x0018, 0x5A), made.read(0x0011, 0x01, 0x16), made.write(0x0027, 0x01, 0x01), made.read(0x0027, 0x01, 0x01)]
    sent = made.oversampled(made.recording(*frames), 10, 2, seed=17)
    return sent + b'\x01' * 260_000 + made.oversampled(b''.join(checked), 10, 2, seed=18)


def session_file():
    """The capture as a .sr file."""
    return made.session_file(samples(), made.Channels(CHANNELS, 1, seed=5, moves=0.005), RATE, piece=1 << 22)


if __name__ == '__main__':
    with open(os.path.join(made.ROOT, 'examples', 'open-day.sr'), 'wb') as out:
        out.write(session_file())
