"""Sending an order or a whole setup, and the fewest frames."""
import couplingnut as cn
from module_tests.made import MAP, SCRATCH_WRITE, Calls, opened


class Sending(Calls):
    def test_send(self):
        """sending, and each of its refusals"""
        self.assertEqual(SCRATCH_WRITE[:7], b'\0\0\2\0\2\0\2')
        self.assertEqual([len(cn.send(cn.READ, settings, 0, 1000)) for settings in (0, cn.SINGLE_INSTRUCTION)], [16035, 48003])
        self.assert_refused(7, cn.send, 2, 0, 0x000A, 1, b'\0')
        self.assert_refused(7, cn.send, 0, 2 ** 64 - 1, 0x000A, 1, b'\0')
        self.assert_refused(8, cn.send, 0, 0, 0x000A, 2, b'\0')
        self.assert_refused(8, cn.send, 1, 0, 0x000A, 2 ** 32 + 1)
        self.assert_refused(9, cn.send, 0, 0, 0x8000, 1, b'\0')
        self.assert_refused(10, cn.send, 0, cn.SINGLE_INSTRUCTION, 0x0001, 2, b'\0\0')
        self.assert_refused(11, cn.send, 0, 0, 0x000A, 1, b'\0', room=50)
        self.assertRaises(ValueError, cn.send, 0, 0, 2 ** 64, 1, b'\0')
        self.assertRaises(ValueError, cn.send, 0, -1, 0x000A, 1, b'\0')

    def test_send_setup(self):
        """a whole setup is the recordings of its orders, joined"""
        orders = [(cn.WRITE, 0x000A, 1, b'\x3C'), (cn.READ, 0x0004, 2, b'')] * 20
        listed = b''.join(cn.listed(*order) for order in orders)
        for settings in range(8):
            self.assertEqual(cn.send_setup(settings, listed), b''.join(cn.send(d, settings, s, c, b) for d, s, c, b in orders))
        session, *banks = opened()
        _, records = cn.read(MAP, session, *banks, cn.send_setup(0, listed))
        self.assertEqual([record.address for record in records], [0x000A, 0x0004, 0x0003] * 20)
        self.assertEqual(cn.send_setup(2 ** 64 - 1, b'', room=0), b'')

    def test_send_setup_refused(self):
        """each refusal of a setup"""
        write, read = cn.listed(cn.WRITE, 0x000A, 1, b'\0'), cn.listed(cn.READ, 0x0004, 1000)
        for end in range(1, len(write)):
            self.assert_refused(14, cn.send_setup, 8, read + write[:end])
        self.assert_refused(14, cn.send_setup, 0, b'\0\5' + write[2:7])
        self.assert_refused(14, cn.send_setup, 0, write * 65)
        self.assert_refused(7, cn.send_setup, 8, write)
        self.assert_refused(8, cn.send_setup, 0, write + cn.listed(cn.READ, 0x8000, 1, b'\0') + cn.listed(2, 0, 1, b'\0'))
        self.assert_refused(9, cn.send_setup, 0, write + cn.listed(cn.WRITE, 0x8000, 1, b'\0'))
        self.assert_refused(10, cn.send_setup, cn.SINGLE_INSTRUCTION, cn.listed(cn.WRITE, 0x0001, 2, b'\0\0'))
        self.assert_refused(15, cn.send_setup, 0, read * 5, room=0)
        self.assert_refused(11, cn.send_setup, 0, write * 2, room=101)

    def test_fewest_frames(self):
        """single registers become one order for each row of them"""
        addresses, data = [0x0010, 0x0011, 0x0012, 0x0014, 0x7FFF], b'\1\2\3\4\5'
        alone = cn.listed(cn.WRITE, 0x0014, 1, b'\4') + cn.listed(cn.WRITE, 0x7FFF, 1, b'\5')
        self.assertEqual(cn.fewest_frames(True, addresses, data), cn.listed(cn.WRITE, 0x0010, 3, b'\1\2\3') + alone)
        self.assertEqual(cn.fewest_frames(False, addresses, data), cn.listed(cn.WRITE, 0x0012, 3, b'\3\2\1') + alone)
        self.assertEqual(len(cn.fewest_frames(False, addresses, data, room=29)), 29)

    def test_fewest_frames_written(self):
        """a thousand registers apart, sent in lists of 64 and read again"""
        addresses = range(0x0010, 0x0010 + 3000, 3)
        data = bytes(address % 251 for address in addresses)
        for ascending, settings in [(False, 0), (True, cn.ASCENDING), (True, cn.ASCENDING | cn.LSB_FIRST)]:
            lists = list(cn.cut_orders(cn.fewest_frames(ascending, addresses, data)))
            self.assertEqual(len(lists), 16)
            recording = b''.join(cn.send_setup(settings, orders) for orders in lists)
            # 0x0000 by a mirror: bits 5 and 2 ascending, 6 and 1 lowest bit first
            setting = {0: 0x00, 2: 0x24, 3: 0x66}[settings]
            session, *banks = opened()
            session, _ = cn.read(MAP, session, *banks, cn.send(cn.WRITE, 0, 0x0000, 1, [setting]))
            _, records = cn.read(MAP, session, *banks, recording)
            self.assertEqual([(record.address, record.byte3) for record in records], list(zip(addresses, data)))

    def test_fewest_frames_refused(self):
        """each refusal of the fewest frames"""
        for addresses in [[], [0x0010, 0x0010], [0x0011, 0x0010], [0x8000], [0x0000], [0x0001], [0x000F], range(0x0010, 0x0010 + 1001)]:
            self.assert_refused(19, cn.fewest_frames, True, addresses, bytes(len(addresses)), room=0)
        self.assert_refused(19, cn.fewest_frames, True, [0x0010], b'', room=0)
        self.assert_refused(19, cn.fewest_frames, True, [0x0010], b'\0\0', room=0)
        self.assert_refused(11, cn.fewest_frames, True, [0x0010, 0x0012], b'\0\0', room=17)
        self.assertRaises(ValueError, cn.fewest_frames, True, [0x10010], b'\0')
        self.assertRaises(ValueError, cn.fewest_frames, True, [-1], b'\0')

    def test_cut_orders(self):
        """a list of orders is cut between two of them"""
        orders = [cn.listed(cn.WRITE, 0x0010, 1, b'\0'), cn.listed(cn.READ, 0x0004, 2), cn.listed(cn.WRITE, 0x0020, 2, b'\1\2')]
        self.assertEqual(list(cn.cut_orders(b''.join(orders), 1)), orders)
        self.assertEqual(list(cn.cut_orders(b''.join(orders), 2)), [orders[0] + orders[1], orders[2]])
        self.assertEqual(list(cn.cut_orders(b''.join(orders))), [b''.join(orders)])
        self.assertEqual(list(cn.cut_orders(b'')), [])
