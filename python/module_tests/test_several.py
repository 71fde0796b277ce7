"""Several chips on one wire."""
import couplingnut as cn
from module_tests.made import MAP, SCRATCH_WRITE, Calls, on_wires, opened


class Several(Calls):
    def test_several(self):
        """several chips: each as if it were alone, its records with its number"""
        chips = cn.Several(MAP, 3)
        other = cn.send(cn.WRITE, 0, 0x000A, 1, [0x55])
        records = chips.read(on_wires(SCRATCH_WRITE, 1) + on_wires(other, 0, 2))
        self.assertEqual([str(record) for record in records], ['1 W 000A 3C 3C 1 3C', '0 W 000A 55 55 1 55', '2 W 000A 55 55 1 55'])
        self.assertEqual(([chips.active(chip)[10] for chip in range(3)], chips.buffer(0)[10]), ([0x55, 0x3C, 0x55], 0))
        session, *banks = opened()
        session, alone = cn.read(MAP, session, *banks, SCRATCH_WRITE)
        self.assertEqual((records[0].record, chips.active(1), chips.buffer(1)), (alone[0], bytes(banks[0]), bytes(banks[1])))
        self.assertEqual([chip.session.phase for chip in chips.chips], ['rest'] * 3)
        self.assertEqual(cn.Several(MAP, 8).read(b''), [])

    def test_contended(self):
        """a read with another select low at an edge is contended, whatever it carried; a write never is"""
        run = cn.send(cn.READ, 0, 0x000A, 1)
        both = cn.Several(MAP, 2).read(on_wires(run, 0, 1))
        self.assertEqual([(record.chip, record.contended) for record in both], [(0, True), (1, True)])
        for low, contended in (((34, 35), True), ((48, 49), True), ((33, 34), False), ((0, 33), False)):
            samples = bytearray(on_wires(run, 0))
            for at in range(*low):
                samples[2 * at] &= ~2
            records = [record for record in cn.Several(MAP, 2).read(samples) if record.chip == 0]
            self.assertEqual([(record.contended, record.record.byte5) for record in records], [(contended, 2 * contended)], low)
        written = cn.Several(MAP, 2).read(on_wires(SCRATCH_WRITE, 0, 1))
        self.assertEqual([record.contended for record in written], [False, False])

    def test_several_pieces(self):
        """several chips in pieces: the mark of a contended byte is carried from call to call"""
        samples = bytearray(on_wires(SCRATCH_WRITE, 0) + on_wires(cn.send(cn.READ, 0, 0x000A, 2), 0))
        samples[2 * (51 + 34)] &= ~2
        whole = cn.Several(MAP, 2)
        expected = whole.read(samples)
        self.assertEqual([record.contended for record in expected if record.chip == 0], [False, True, False])
        for size in (2, 6, 10, 200):
            chips, found, marks = cn.Several(MAP, 2), [], []
            for start in range(0, len(samples), size):
                found += chips.read(samples[start:start + size])
                marks.append(chips.chips[0].contended)
            self.assertEqual((found, chips.chips, chips.memory), (expected, whole.chips, whole.memory))
            self.assertTrue(any(marks) or size == 200)

    def test_several_refused(self):
        """each refusal of several chips leaves chips and memory as they were"""
        good = cn.Several(MAP, 2)
        good.read(on_wires(SCRATCH_WRITE, 0))
        chips, memory = good.chips, bytes(good.memory)
        samples = on_wires(SCRATCH_WRITE, 1)

        def changed(**fields):
            return [chips[0], chips[1]._replace(**fields)]
        stale = cn.Session(bytes(chips[0].session)[:20] + b'\1')
        for number, map, list_of, given, room in [
                (17, MAP, [], samples, 9), (17, MAP, chips * 5, samples, 9), (17, MAP, changed(active_start=0), samples, 9),
                (17, MAP, changed(buffer_start=49), samples, 9), (17, MAP, changed(buffer_start=2 ** 64 - 1), samples, 9),
                (1, MAP, changed(session=stale), samples, 9), (1, MAP, changed(contended=True), samples, 9),
                (2, b'', chips, samples, 9), (3, MAP[:-3] + b'\0\0\0', chips, samples, 9), (4, MAP, changed(buffer_length=15), samples, 9),
                (5, MAP, chips, samples[:-1], 9), (5, MAP, chips, b'\xFB\0', 9), (5, MAP, chips, b'\xFF\1', 9),
                (5, MAP, chips, b'\xFF\0' * 65537, 9), (6, MAP, chips, samples, 0)]:
            self.assert_refused(number, cn.read_several, map, list_of, good.memory, given, room)
            self.assertEqual(bytes(good.memory), memory)
        self.assertRaises(ValueError, cn.read_several, MAP, changed(active_start=-1), good.memory, samples)
        self.assert_refused(5, good.read, samples + b'\0')
        self.assertEqual((good.chips, bytes(good.memory)), (chips, memory))
        self.assertEqual(len(good.read(samples, room=1)), 1)
        self.assert_refused(17, cn.Several(MAP, 9).read, b'')
        self.assert_refused(17, cn.Several(MAP, 0).read, b'')
        self.assert_refused(2, cn.Several, b'', 1)
