"""The verdict rule, case by case (docs/rules/programs.md, "The verdict of a report")."""
import unittest

from report_tests import made
from report_tests.made import RESET, TRANSFER, cut, read, recording, reported, write

GOOD = [write(0x0010, 0x2D), write(0x0018, 0x5A), write(*TRANSFER)]
FREE = made.HEAD + '0010 buffered FF 16  Channel\n0018 plain FF 40  Output level\n'


class Verdict(unittest.TestCase):
    def assert_ready(self, samples, table=made.TABLE, remarks=()):
        report = reported(samples, table)
        told = [finding.cause for finding in report.verdict.reasons]
        self.assertEqual(told, [])
        self.assertEqual((report.status(), report.headline()), (0, 'READY TO SIGN OUT'))
        self.assertEqual([remark.cause for remark in report.verdict.remarks], list(remarks))
        return report

    def assert_not_ready(self, samples, causes, words, table=made.TABLE):
        report = reported(samples, table)
        self.assertEqual([finding.cause for finding in report.verdict.reasons], causes)
        self.assertEqual((report.status(), report.headline()), (1, 'DO NOT SIGN OUT'))
        said = ' / '.join(made.plain(finding.sentence) for finding in report.verdict.reasons)
        for part in words:
            self.assertIn(part, said)
        return report

    def test_ready(self):
        """a unit whose wanted values are all in force is ready"""
        self.assert_ready(recording(*GOOD))
        self.assert_ready(recording(write(*RESET), *GOOD, read(0x0018, 0x5A), read(0x0010, 0x2D)))

    def test_nothing_wanted(self):
        """a table without wanted values asks for none"""
        self.assert_ready(recording(write(0x0018, 0x01)), FREE)

    def test_empty(self):
        """an empty recording, and one whose select never falls"""
        self.assert_not_ready(b'', ['recording'], ['is empty'], FREE)
        self.assert_not_ready(b'\1\3' * 20, ['recording'], ['the select never went low'], FREE)

    def test_dead_clock(self):
        """a recording taken with a dead clock"""
        still = bytes(sample & ~2 for sample in recording(*GOOD))
        self.assert_not_ready(still, ['recording'], ['no clock'], FREE)
        self.assert_not_ready(still, ['recording', 'wanted', 'wanted'], ['no clock'])

    def test_begins_low(self):
        """a recording that begins with the select low"""
        whole = recording(*GOOD)
        self.assert_not_ready(whole[len(made.IDLE):], ['recording'], ['begins with the select low'])
        self.assert_not_ready(recording(*GOOD)[20:], ['recording', 'broken', 'wanted'], ['begins with the select low'])

    def test_ends_low(self):
        """a recording that ends in the middle of a frame"""
        for kept in (5, 33, 40, 49, 51):
            end = write(0x0019, 0x01)[:kept]
            done = kept == 51
            (self.assert_ready if done else lambda samples: self.assert_not_ready(samples, ['recording'], ['ends with the select low']))(
                recording(*GOOD) + end)

    def test_broken_command(self):
        """a broken command blocks, whatever is in force"""
        for bits in (1, 11, 15):
            samples = recording(cut(write(0x0010, 0x2D), bits), *GOOD)
            self.assert_not_ready(samples, ['command'], [f'after {bits} of 16 bits'])

    def test_broken_byte(self):
        """a broken byte blocks, and a transfer after it does not help"""
        samples = recording(write(0x0018, 0x5A), cut(write(0x0010, 0x2D), 21), write(*TRANSFER))
        self.assert_not_ready(samples, ['broken'], ['Channel, low byte (0x0010)', '5 of 8 bits',
                                                    '0x16 (22) is still in force, 0x2D (45) is wanted'])

    def test_broken_and_sent_again(self):
        """a broken byte that was sent again whole is a remark where a wanted value is in force"""
        samples = recording(cut(write(0x0010, 0x2D), 23), *GOOD)
        report = self.assert_ready(samples, remarks=['broken'])
        said = made.plain(report.verdict.remarks[0].sentence)
        self.assertRegex(said, r'was broken off at 0\.\d+ ms and written whole at 0\.\d+ ms; 0x2D \(45\), the wanted value, is in force')

    def test_broken_after_whole(self):
        """a broken byte after the whole one is a remark too, and says nothing of a later write"""
        report = self.assert_ready(recording(*GOOD, cut(write(0x0010, 0x11), 23)), remarks=['broken'])
        self.assertNotIn('written whole', made.plain(report.verdict.remarks[0].sentence))

    def test_broken_without_wish(self):
        """a broken byte of a register without a wanted value blocks, though it was sent again"""
        again = recording(cut(write(0x0019, 0x01), 20), write(0x0019, 0x01), *GOOD)
        self.assert_not_ready(again, ['broken'], ['a whole byte came later', 'no value is wanted of it'])

    def test_broken_other_registers(self):
        """broken bytes for control, read-only, blank and absent registers block"""
        for address in (0x000F, 0x0001, 0x0004, 0x0012, 0x0400):
            self.assert_not_ready(recording(*GOOD, cut(write(address, 0x01), 18)), ['broken'], ['2 of 8 bits', 'did nothing'])

    def test_broken_read(self):
        """a broken read blocks, unless the wanted value is in force"""
        self.assert_not_ready(recording(*GOOD, cut(read(0x0019, 0x08), 20)), ['broken'], ['a read of it broke off after 4 of 8 bits'])
        self.assert_ready(recording(*GOOD, cut(read(0x0010, 0x2D), 20)), remarks=['broken'])

    def test_disagreeing_read(self):
        """a read that disagreed blocks, and one that agreed later does not take it back"""
        samples = recording(*GOOD, read(0x0018, 0x58), read(0x0018, 0x5A))
        self.assert_not_ready(samples, ['read'], ['0x5A (90) was due and the line carried 0x58 (88)'])

    def test_waits(self):
        """a value that waits blocks, wanted or not"""
        self.assert_not_ready(recording(write(0x0018, 0x5A), write(0x0010, 0x2D)), ['waits'],
                              ['0x2D (45) waits for a transfer; 0x16 (22) is in force'])
        self.assert_not_ready(recording(*GOOD, write(0x0011, 0x07)), ['waits'], ['Channel, high byte', '0x07 (7) waits'])
        self.assert_not_ready(recording(*GOOD, write(0x0010, 0x33)), ['waits'], ['0x33 (51) waits for a transfer; 0x2D (45) is in force.'])
        self.assert_not_ready(recording(write(0x0018, 0x5A), write(0x0010, 0x33)), ['waits'], ['0x2D (45) is wanted'])

    def test_waits_for_nothing(self):
        """a buffered byte that equals the one in force does not wait"""
        self.assert_ready(recording(*GOOD, write(0x0010, 0x2D)))

    def test_ignored(self):
        """ignored writes block: absent, read-only, blank, halves that differ"""
        for address, byte, why in ((0x0400, 0x11, 'no such register'), (0x0400, 0x00, 'no such register'), (0x0004, 0x00, 'read-only'),
                                   (0x0012, 0x01, 'blank'), (0x0000, 0x40, 'halves do not agree')):
            self.assert_not_ready(recording(*GOOD, write(address, byte)), ['ignored'], [why])

    def test_zero_to_blank(self):
        """0 to a blank register is a remark"""
        report = self.assert_ready(recording(*GOOD, write(0x0013, 0x00, 0x00)), remarks=['ignored'])
        self.assertIn('0x0012 and 0x0013', made.plain(report.verdict.remarks[0].sentence))

    def test_wanted(self):
        """a wanted value that is not in force blocks"""
        self.assert_not_ready(recording(write(0x0010, 0x2D), write(*TRANSFER)), ['wanted'], ['0x40 (64) is in force; 0x5A (90) is wanted'])
        self.assert_not_ready(recording(*GOOD, write(*RESET)), ['wanted', 'wanted'], ['Channel, low byte', 'Output level'])

    def test_told_once(self):
        """a wanted value that misses because its byte broke or waits is told once"""
        samples = recording(cut(write(0x0018, 0x5A), 20), write(0x0010, 0x2D))
        self.assert_not_ready(samples, ['broken', 'waits'], [])

    def test_stopped_between_bytes(self):
        """a run that stopped between two bytes is seen by its wanted values, and one after its command is remarked"""
        run = write(0x0019, 0x01, 0x5A)
        stopped = cut(run, 24)
        self.assert_not_ready(recording(write(0x0010, 0x2D), stopped, write(*TRANSFER)), ['wanted'], ['Output level'])
        self.assert_ready(recording(*GOOD, cut(run, 16)), remarks=['frame'])
        self.assert_ready(recording(*GOOD, cut(run, 0)), remarks=['frame'])

    def test_slow(self):
        """a write that asks for the slow setting is a remark"""
        self.assert_ready(recording(*GOOD, write(0x0001, 0x10)), remarks=['slow'])

    def test_refused(self):
        """a refused recording says nothing of the unit"""
        report = reported(recording(*GOOD) + b'\x12')
        self.assertEqual((report.status(), report.headline(), hasattr(report, 'reading')), (2, 'DO NOT SIGN OUT', False))
        self.assertEqual((report.refusal.number, report.refusal.at), (5, len(recording(*GOOD))))


class Many(unittest.TestCase):
    TABLE = made.HEAD + ''.join(f'{at:04X} buffered FF 00  Setting {at - 0x0F} | {at:02X}\n' for at in range(0x10, 0x20))

    def causes(self, *frames):
        return [(finding.cause, len(finding.addresses)) for finding in reported(recording(*frames), self.TABLE).verdict.reasons]

    def test_many_wait(self):
        """more than three registers that wait share a reason"""
        all_but = [write(address, address) for address in range(0x10, 0x20)]
        self.assertEqual(self.causes(*all_but), [('waits', 16)])
        self.assertEqual(self.causes(*all_but[:13], write(*TRANSFER), *all_but[13:]), [('waits', 1)] * 3)

    def test_many_broken(self):
        """more than three broken bytes: three reasons, and one for the rest"""
        good = [write(address, address) for address in range(0x10, 0x18)]
        broken = [cut(write(address, address), 20) for address in range(0x18, 0x20)]
        self.assertEqual(self.causes(*good, *broken, write(*TRANSFER)), [('broken', 1)] * 3 + [('broken', 5)])
        commands = [cut(write(0x10, 0x10), bits) for bits in range(1, 6)]
        self.assertEqual(self.causes(*commands, *good, *broken[:2], write(*TRANSFER))[:5], [('command', 0)] * 4 + [('broken', 2)])

    def test_many_others(self):
        """many disagreeing reads, ignored writes or missing values share a reason each"""
        good = [write(address, address) for address in range(0x10, 0x20)] + [write(*TRANSFER)]
        self.assertEqual(self.causes(*good, *[read(address, 0) for address in range(0x10, 0x14)]), [('read', 4)])
        self.assertEqual(self.causes(*good, *[write(address, 1) for address in range(0x20, 0x24)]), [('ignored', 4)])
        self.assertEqual(self.causes(write(0x000A, 1)), [('wanted', 16)])

    def test_one_register_often(self):
        """one register that breaks or disagrees often is one reason"""
        good = [write(address, address) for address in range(0x10, 0x20)] + [write(*TRANSFER)]
        self.assertEqual(self.causes(*good, *[read(0x10, 0)] * 5), [('read', 1)])
        self.assertEqual(self.causes(*good[1:], *[cut(write(0x10, 0x10), 20)] * 5), [('broken', 1)])
