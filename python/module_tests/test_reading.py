"""Opening, reading and the next record, the session, and the words for the numbers."""
from array import array

import couplingnut as cn
from module_tests.made import MAP, SCRATCH_WRITE, WRITTEN, WRITTEN_AGAIN, Calls, opened


class Reading(Calls):
    def test_touched_by_reading(self):
        """the reader touches the registers that are written"""
        session, *banks = opened()
        words = cn.touched_words(MAP)
        cn.read(MAP, session, *banks, SCRATCH_WRITE, touched=words)
        self.assertEqual(list(cn.touched(words)), [0x000A])
        self.assert_refused(16, cn.read, MAP, session, *banks, SCRATCH_WRITE, touched=array('Q', [0, 0]))
        self.assert_refused(16, cn.next_record, MAP, session, *banks, SCRATCH_WRITE, touched=array('Q'))

    def test_rise(self):
        """with the flag, the end of the frame puts a buffered register in force"""
        flagged = bytearray(cn.to_version_2(MAP))
        flagged[5], flagged[33:36] = 1, b'\3\xFF\x11'
        active, buffer = cn.banks(flagged)
        samples = cn.send(cn.WRITE, 0, 0x0009, 1, b'\x22')
        session, records = cn.read(flagged, cn.open(flagged, active, buffer), active, buffer, samples[:-1])
        self.assertEqual((len(records), session.armed, active[9], buffer[9]), (1, True, 0x11, 0x22))
        self.assert_refused(1, cn.read, MAP, cn.Session(bytes(cn.open(MAP, *cn.banks(MAP)))[:20] + b'\1'), *cn.banks(MAP), b'')
        session, records = cn.read(flagged, session, active, buffer, samples[-1:])
        self.assertEqual((records, session.armed, active[9]), ([], False, 0x22))

    def test_open(self):
        """opening"""
        session, active, buffer = opened()
        self.assertEqual(bytes(active), MAP[7::3])
        self.assertEqual(active, buffer)
        self.assertEqual((session.version, session.last_csb, session.last_sclk, session.phase), (4, 1, 0, 'rest'))
        self.assertEqual((session.bits, session.value, session.address, session.direction), (0, 0, 0, cn.WRITE))
        self.assertFalse(any(session.settings) or any(session.settings_in_use) or session.left or session.stalled or session.armed)

    def test_open_refused(self):
        """opening refused leaves the banks as they were"""
        for number, map, lengths in [(2, b'', (16, 16)), (3, MAP[:-3] + b'\0\0\0', (16, 16)), (4, MAP, (15, 16)), (4, MAP, (16, 0))]:
            active, buffer = (bytearray(b'\xA5' * length) for length in lengths)
            self.assert_refused(number, cn.open, map, active, buffer)
            self.assertEqual((active, buffer), tuple(b'\xA5' * length for length in lengths))

    def test_read(self):
        """reading the printed write"""
        session, active, buffer = opened()
        after, records = cn.read(MAP, session, active, buffer, SCRATCH_WRITE)
        self.assertEqual(records, [WRITTEN])
        self.assertEqual(str(records[0]), 'W 000A 3C 3C 1 3C')
        self.assertEqual((active[0x000A], buffer[0x000A]), (0x3C, 0))
        self.assertEqual(after.phase, 'rest')
        self.assertEqual(cn.read(MAP, session, active, buffer, b''), (session, []))

    def test_cut(self):
        """a byte that the select broke off"""
        session, active, buffer = opened()
        _, records = cn.read(MAP, session, active, buffer, SCRATCH_WRITE[:47] + b'\1')
        self.assertEqual([str(record) for record in records], ['C 000A 07 01 0 00'])
        self.assertEqual(active[0x000A], 0)

    def test_pieces(self):
        """a recording cut anywhere reads the same"""
        recording = cn.send(cn.WRITE, 0, 0x0000, 1, [0x42]) + cn.send(cn.WRITE, cn.LSB_FIRST, 0x000A, 3, [1, 2, 3])
        whole_session, *whole_banks = opened()
        whole_session, whole = cn.read(MAP, whole_session, *whole_banks, recording)
        self.assertEqual(len(whole), 4)
        for size in (1, 7, 50):
            session, *banks = opened()
            records = []
            for at in range(0, len(recording), size):
                session, more = cn.read(MAP, session, *banks, recording[at:at + size])
                records += more
            self.assertEqual((session, records, banks), (whole_session, whole, whole_banks))

    def test_next_record(self):
        """the next record, and at which sample it stands"""
        recording = SCRATCH_WRITE * 2 + b'\1' * 5
        session, *banks = opened()
        at, found = 0, []
        while at < len(recording):
            session, record, taken = cn.next_record(MAP, session, *banks, recording[at:])
            at += taken
            found.append((at, record))
        # A byte is whole at its 49th sample.
        self.assertEqual(found, [(49, WRITTEN), (51 + 49, WRITTEN_AGAIN), (len(recording), None)])
        other, *other_banks = opened()
        other, _ = cn.read(MAP, other, *other_banks, recording)
        self.assertEqual((session, banks), (other, other_banks))

    def test_read_refused(self):
        """each refusal of reading leaves the banks as they were"""
        session, *banks = opened()
        before = [bytes(bank) for bank in banks]
        unsound = bytes(session)[:1] + b'\0' + bytes(session)[2:]
        for call in (cn.read, cn.next_record):
            self.assert_refused(1, call, MAP, cn.Session(unsound), *banks, SCRATCH_WRITE)
            self.assert_refused(1, call, MAP, cn.Session(b'\2' + bytes(session)[1:]), *banks, SCRATCH_WRITE)
            self.assert_refused(2, call, b'', session, *banks, SCRATCH_WRITE)
            self.assert_refused(3, call, MAP[:-3] + b'\0\0\0', session, *banks, SCRATCH_WRITE)
            self.assert_refused(4, call, MAP, session, banks[0], bytearray(17), SCRATCH_WRITE)
            self.assert_refused(5, call, MAP, session, *banks, SCRATCH_WRITE + b'\x10')
            self.assert_refused(5, call, MAP, session, *banks, b'\1' * 65537)
        self.assert_refused(6, cn.read, MAP, session, *banks, SCRATCH_WRITE, room=0)
        self.assertEqual([bytes(bank) for bank in banks], before)
        _, records = cn.read(MAP, session, *banks, SCRATCH_WRITE, room=1)
        self.assertEqual(records, [WRITTEN])

    def test_session(self):
        """a session as a value, by its layout"""
        session, *banks = opened()
        session, _ = cn.read(MAP, session, *banks, cn.send(cn.WRITE, 0, 0x0000, 1, [0x3C]))
        session, _ = cn.read(MAP, session, *banks, cn.send(cn.WRITE, cn.ASCENDING, 0x0001, 1, [0x30]))
        self.assertEqual(session.settings, cn.Settings(False, True, True, False, True))
        # 16 bits of a read of 0x000C, and three of its data, the last two of them high.
        run = cn.send(cn.READ, cn.ASCENDING, 0x000C, 1)
        session, _ = cn.read(MAP, session, *banks, run[:35] + b'\x08\x0A\x08\x0A')
        self.assertEqual((session.phase, session.bits, session.value, session.address), ('data', 3, 3, 0x000C))
        self.assertEqual((session.direction, session.last_csb, session.last_sclk), (cn.READ, 0, 1))
        self.assertEqual(session.settings_in_use, cn.SettingsInUse(False, True, True, False))
        again = cn.Session(bytes(session))
        self.assertTrue(again == session and hash(again) == hash(session) and eval(repr(session), {'Session': cn.Session}) == session)
        self.assertRaises(ValueError, cn.Session, b'\1' * 19)

    def test_overlap(self):
        """banks that overlap are not handed over"""
        session, active, _ = opened()
        self.assertRaises(ValueError, cn.read, MAP, session, active, active, SCRATCH_WRITE)
        memory = bytearray(31)
        self.assertRaises(ValueError, cn.open, MAP, memoryview(memory)[:16], memoryview(memory)[15:])
        self.assertRaises(TypeError, cn.open, MAP, bytes(16), bytearray(16))

    def test_message(self):
        """each number has words of its own"""
        given = [*range(20)]
        self.assertEqual(len({cn.message(number) for number in given + [2 ** 32 - 1]}), len(given) + 1)
