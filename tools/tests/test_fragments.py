"""Fragments with a code, which of them are enough, and the search for the dearest ones."""
import itertools
import random
import unittest

import running

import bars
import datagrams
import dearest
import fragments
import standards


class Code(unittest.TestCase):
    def test_a_fragment_is_that_of_the_standards_words(self):
        packet = bytes(range(250))
        count, length, (chunk, _), _ = standards.shape(len(packet), 2, 200)
        for index in range(count):
            wanted = standards.fragment(packet, 2, 200, 7, index)
            self.assertEqual(fragments.fragment(7, index, count, chunk, wanted[-length:]), wanted)

    def test_enough_is_where_each_chunk_lacks_48_bytes(self):
        # Two chunks of 2 and 48 bytes over ten fragments of ten bytes: each fragment has five bytes of each chunk.
        self.assertEqual(fragments.places_enough(2, 10, 10, [7, 3]), 1)
        # Over 50 fragments of two bytes each has one of each chunk.
        self.assertEqual([fragments.places_enough(2, 50, 2, order) for order in ([4, 9, 1], [4])], [2, None])

    def test_fragments_without_a_code_are_all_needed(self):
        self.assertEqual(fragments.needed([running.fragment(0), running.fragment(0)]), 2)
        packet = [fragments.fragment(3, index, 50, 2, bytes(2)) for index in range(50)]
        self.assertEqual([fragments.needed(packet), fragments.needed(packet[9:])], [2, 2])


class Search(unittest.TestCase):
    def test_what_is_tried_is_what_a_receiver_takes(self):
        draw = random.Random(1)
        shapes = [*dearest.KNOWN, *(dearest.drawn(draw) for _ in range(5))]
        shapes += [dearest.varied(draw, shape) for shape in shapes[-5:]]
        for shape in shapes:
            with self.subTest(shape=shape):
                self.assertTrue(dearest.is_taken(shape))
                for datagram in itertools.islice(dearest.capture(shape), 40):
                    self.assertTrue(datagrams.is_packet(datagram))

    def test_what_comes_is_just_enough(self):
        shape = dearest.Shape(2, (100,), 491, 0, 2, 50)
        self.assertEqual(dearest.enough(shape, 100), [0, 1, 50, 51])


class Picture(unittest.TestCase):
    def test_a_bar_for_each_row(self):
        drawn = bars.drawing("Times", [("`serve` & others", 2.5), ("slower", 0.5)])
        self.assertIn("serve &amp; others", drawn)
        self.assertEqual([drawn.count("#4a7fb5"), drawn.count("#b0413e"), drawn.count("<line")], [1, 1, 1])


if __name__ == "__main__":
    unittest.main()
