"""The words of touched registers."""
import ctypes
from array import array

import couplingnut as cn
from module_tests.made import Calls


class Touched(Calls):
    def test_touched(self):
        """touched registers are counted, and found one after the other"""
        addresses = [0, 5, 63, 64, 200, 8191]
        words = array('Q', [0] * 128)
        for address in addresses:
            words[address // 64] |= 1 << address % 64
        self.assertEqual(cn.touched_count(words), 6)
        self.assertEqual(list(cn.touched(words)), addresses)
        self.assertEqual([cn.touched_next(words, start) for start in (5, 6, 201, 8191, 8192, 2 ** 64 - 1)], [5, 63, 8191, 8191, 8192, 8192])
        self.assertEqual(cn.touched_next((ctypes.c_uint64 * 2)(0, 2)), 65)
        cn.touched_mark(words)
        self.assertEqual(words, array('Q', [0] * 128))
        self.assertEqual((cn.touched_count(words), cn.touched_next(words), list(cn.touched(words))), (0, 8192, []))

    def test_touched_words(self):
        """a word for 64 registers, and none at all"""
        for registers, words in [(16, 1), (63, 1), (64, 1), (65, 2), (8192, 128)]:
            self.assertEqual(cn.touched_words(b'\0\0\1' + registers.to_bytes(2, 'big')), array('Q', [0] * words))
        none = array('Q')
        cn.touched_mark(none)
        self.assertEqual((cn.touched_count(none), cn.touched_next(none), cn.touched_next(none, 7)), (0, 0, 0))

    def test_touched_refused(self):
        """more than 128 words are refused, and left as they were"""
        words = array('Q', [2 ** 64 - 1] * 129)
        for call in (cn.touched_mark, cn.touched_count, cn.touched_next):
            self.assert_refused(16, call, words)
            self.assertRaises(TypeError, call, bytearray(16))
            self.assertRaises(TypeError, call, array('q', [0]))
        self.assertEqual(words, array('Q', [2 ** 64 - 1] * 129))
        self.assertRaises(ValueError, cn.touched_mark, memoryview(bytearray(17))[1:].cast('Q'))
        self.assertRaises(ValueError, cn.touched_next, words[:128], -1)
        self.assertRaises(ValueError, cn.touched_next, words[:128], 2 ** 64)
