"""Maps: the map test, the converter, mending, and either version."""
import couplingnut as cn
from module_tests.made import MAP, SCRATCH_WRITE, Calls


class Maps(Calls):
    def test_map(self):
        """the map test"""
        cn.map_test(MAP)
        self.assert_refused(2, cn.map_test, b'')
        self.assert_refused(2, cn.map_test, MAP + b'\0')
        self.assert_refused(3, cn.map_test, MAP[:5] + b'\1' + MAP[6:])

    def test_convert(self):
        """a map in the other version, and back"""
        flagged = cn.to_version_2(MAP)
        self.assertEqual(flagged, b'\x00\x34\x02' + MAP[3:5] + b'\x00' + MAP[5:])
        self.assertEqual(cn.to_version_1(flagged), MAP)
        self.assertEqual((cn.to_version_1(MAP), cn.to_version_2(flagged)), (MAP, flagged))
        marked = flagged[:5] + b'\x01' + flagged[6:]
        self.assertEqual(cn.to_version_2(marked), marked)
        self.assert_refused(13, cn.to_version_1, marked, room=0)
        self.assert_refused(11, cn.to_version_2, MAP, room=53)
        self.assertEqual(cn.to_version_2(MAP, room=54), flagged)
        for call in (cn.to_version_1, cn.to_version_2):
            self.assert_refused(2, call, flagged[:5] + b'\x02' + flagged[6:])
            self.assert_refused(2, call, MAP[:-1])
            self.assert_refused(3, call, MAP[:5] + b'\1' + MAP[6:])

    def test_mend(self):
        """a map mended, and what it was before"""
        for good in (MAP, cn.to_version_2(MAP)[:5] + b'\x01' + MAP[5:]):
            head = len(good) - 3 * 16
            self.assertEqual(cn.mend(good, room=0), (good, []))
            slips = [cn.Altered(0x0001, 4, 0xFF, 0), cn.Altered(0x0002, 9, 1, 2), cn.Altered(0x000D, 0, 0, 0)]
            typed = bytearray(good)
            for slip in slips:
                typed[head + 3 * slip.address:head + 3 * slip.address + 3] = slip[1:]
            mended, altered = cn.mend(typed)
            cn.map_test(mended)
            self.assertEqual(altered, slips)
            self.assertEqual(mended, good[:head + 6] + bytes(3) + good[head + 9:])
            self.assertEqual(cn.mend(typed, room=3), (mended, altered))
            self.assert_refused(6, cn.mend, typed, room=2)
            typed[head + 3 * 4:head + 3 * 6] = bytes(6)
            self.assert_refused(18, cn.mend, typed, room=0)
            self.assert_refused(2, cn.mend, typed[:-1], room=0)
        self.assert_refused(2, cn.mend, b'')

    def test_either_version(self):
        """opening and reading go alike with either version"""
        left = []
        for map in (MAP, cn.to_version_2(MAP)):
            active, buffer = cn.banks(map)
            session = cn.open(map, active, buffer)
            left.append((cn.read(map, session, active, buffer, SCRATCH_WRITE), active, buffer))
        self.assertEqual(left[0], left[1])
