"""The older clock chips."""
import couplingnut as cn
from module_tests.made import AD9508_MAP, AD9557_MAP, MAP, Calls, opened, opened_part


class Older(Calls):
    def test_older_maps(self):
        """a map of each older part"""
        for part, map, other in [('AD9557', AD9557_MAP, AD9508_MAP), ('AD9508', AD9508_MAP, AD9557_MAP)]:
            cn.map_test(map, part=part)
            cn.map_test(map, part=part, top=0x2C)
            self.assert_refused(12, cn.map_test, map, part=part, top=0x2B)
            self.assert_refused(3, cn.map_test, other, part=part, top=0x2B)
            self.assert_refused(3, cn.map_test, map)
            self.assert_refused(3, cn.map_test, MAP, part=part)
            self.assert_refused(2, cn.map_test, b'', part=part)
            banks = cn.banks(map)
            self.assert_refused(12, cn.open, map, *banks, part=part, top=2 ** 64 - 1)
            self.assert_refused(4, cn.open, map, banks[0], bytearray(44), part=part, top=0)
            self.assertEqual(cn.open(map, *banks, part=part), opened()[0])

    def test_older_send(self):
        """sending to an older chip"""
        for part in cn.PARTS:
            named = {'part': part, 'top': 0x2C}
            sent = [cn.send(cn.READ, 0, 0x2C, count, **named) for count in (1, 2, 3, 4)]
            self.assertEqual([len(samples) for samples in sent], [51, 67, 83, 99])
            # The third and the fifth sample are the lengths' bits, high when 4.
            self.assertEqual([(s[3], s[5]) for s in sent], [(0, 0), (0, 4), (4, 0), (4, 4)])
            self.assert_refused(12, cn.send, 2, 8, 0x8000, 0, part=part, top=0x000E)
            self.assert_refused(7, cn.send, cn.READ, cn.ASCENDING, 0x2C, 1, **named)
            self.assert_refused(8, cn.send, cn.READ, 0, 0x2D, 1001, **named)
            self.assert_refused(9, cn.send, cn.READ, 0, 1, 3, **named)
            self.assert_refused(9, cn.send, cn.READ, cn.LSB_FIRST, 0x2C, 2, **named)
            self.assert_refused(11, cn.send, cn.READ, 0, 1, 1, room=50, **named)

    def test_older_read(self):
        """an older chip's runs: a count, a stall, and bits that are passed over"""
        for part, map in (('AD9557', AD9557_MAP), ('AD9508', AD9508_MAP)):
            run = cn.send(cn.WRITE, 0, 0x15, 2, [0x3C, 0x5A], part=part, top=0x2C)
            session, *banks = opened_part(map, part)
            after, records = cn.read(map, session, *banks, run, part=part)
            self.assertEqual([str(record) for record in records], ['W 0015 3C 3C 1 3C', 'W 0014 5A 5A 1 5A'])
            self.assertEqual((after, banks[0][0x14:0x16]), (session, b'\x5A\x3C'))
            # The select rises after the first byte, which is whole at its 49th sample, and falls again.
            stalled, records = cn.read(map, session, *banks, run[:49] + b'\1\1', part=part)
            self.assertEqual((len(records), stalled.phase, stalled.left, stalled.stalled), (1, 'data', 1, True))
            self.assert_refused(1, cn.read, MAP, stalled, *opened()[1:], run)
            resumed, record, taken = cn.next_record(map, stalled, *banks, b'\0' + run[49:] + b'\1', part=part)
            self.assertEqual((record.address, taken, resumed.phase, resumed.last_csb), (0x0014, 17, 'rest', 0))
            self.assert_refused(1, cn.read, MAP, resumed, *opened()[1:], run)
            # A streaming run ends at 0, and what follows is passed over.
            streamed = cn.send(cn.READ, 0, 3, 4, part=part, top=0x2C)
            after, records = cn.read(map, session, *banks, streamed[:-2] + b'\0\2' * 9 + streamed[-2:], part=part)
            self.assertEqual(([record.address for record in records], after), ([3, 2, 1, 0], session))

    def test_older_stages(self):
        """the buffer stage of the older parts"""
        due = {}
        for part, map in (('AD9557', AD9557_MAP), ('AD9508', AD9508_MAP)):
            session, *banks = opened_part(map, part)
            orders = [(cn.WRITE, 0x10, [0x22]), (cn.WRITE, 0x04, [1]), (cn.READ, 0x10, []), (cn.WRITE, 0x05, [1]), (cn.WRITE, 0x00, [0x40])]
            recording = b''.join(cn.send(d, 0, a, 1, v, part=part, top=0x2C) for d, a, v in orders)
            session, records = cn.read(map, session, *banks, recording, part=part)
            due[part] = records[2].byte3
            self.assertEqual([str(records[i]) for i in (0, 3, 4)], ['W 0010 22 22 2 33', 'W 0005 01 00 4 00', 'W 0000 40 40 3 00'])
            self.assertEqual((banks[0][0x10], session.settings.lsb_first), (0x22, True))
        self.assertEqual(due, {'AD9557': 0x22, 'AD9508': 0x11})

    def test_parts(self):
        """no other part, and no top alone"""
        session, *banks = opened()
        self.assertRaises(ValueError, cn.map_test, MAP, part='AD9558')
        self.assertRaises(ValueError, cn.open, MAP, *banks, top=15)
        self.assertRaises(ValueError, cn.read, MAP, session, *banks, b'', part='AD9508', top=-1)
        self.assertRaises(ValueError, cn.send, cn.READ, 0, 0, 1, part='AD9508')
        self.assertRaises(ValueError, cn.send, cn.READ, 0, 0, 1, top=15)
        self.assertRaises(ValueError, cn.send, cn.READ, 0, 0, 1, part='ad9508', top=15)
