"""Images: the pages that blocks make, and the blocks that make the pages again."""

from __future__ import annotations

import random
import unittest

from pagelog import Block, Put, Zero
from pagelog.block import BLOCK_SIZE, HIGHEST_PAGE, PAGE_SIZE
from pagelog.images import MARK, PAGES, Image, Replay, blocks_of, labelled


def made(blocks: list[bytes], before: dict[int, Image] | None = None) -> dict[int, Image]:
    """The images after these blocks, by their ranges."""
    images = dict(before or {})
    replay = Replay(images.get)
    replay.apply(blocks)
    return images | {image.range: image for image in replay.images()}


def pages(blocks: list[bytes]) -> dict[int, bytes]:
    """The pages that are not all zeros, record by record."""
    found: dict[int, bytearray] = {}
    for block in blocks:
        for record in Block.decode(block).records:
            page = found.setdefault(record.page, bytearray(PAGE_SIZE))
            if isinstance(record, Put):
                page[record.offset : record.offset + len(record.data)] = record.data
            else:
                page[:] = bytes(PAGE_SIZE)
    return {number: bytes(page) for number, page in found.items() if any(page)}


def of(images: dict[int, Image]) -> dict[int, bytes]:
    return {number: page for image in images.values() for number, page in image.pages()}


class Images(unittest.TestCase):
    def setUp(self) -> None:
        self.chance = random.Random(1)

    def records(self) -> list[object]:
        numbers = (0, 1, PAGES - 1, PAGES, 70_000, HIGHEST_PAGE, self.chance.randrange(200))
        found: list[object] = []
        for _ in range(self.chance.randrange(4)):
            page, offset = self.chance.choice(numbers), self.chance.randrange(PAGE_SIZE)
            size = self.chance.choice((1, 20, 1500, PAGE_SIZE))
            found.append(
                Zero(page)
                if self.chance.random() < 0.2
                else Put(page, offset, self.chance.randbytes(size)[: PAGE_SIZE - offset])
            )
        return found

    def test_images_are_what_each_record_makes_and_their_blocks_make_them_again(self) -> None:
        blocks = [Block.of(lsn, self.records()).data for lsn in range(1, 300)]  # type: ignore[arg-type]
        images: dict[int, Image] = {}
        for at in range(0, len(blocks), 50):  # each base from the one before
            images = made(blocks[at : at + 50], images)
            self.assertEqual(of(images), pages(blocks[: at + 50]))
            again = labelled(blocks_of(images[number] for number in sorted(images)), 1)
            self.assertEqual(
                [Block.decode(block).lsn for block in again], list(range(1, len(again) + 1))
            )
            self.assertEqual(pages(again), of(images))

    def test_a_page_that_became_zeros_is_in_no_image_and_a_range_without_pages_has_an_empty_one(
        self,
    ) -> None:
        before = made([Block.of(1, [Put(3, 0, b"x"), Put(4, 0, b"y"), Put(100, 0, b"z")]).data])
        after = made([Block.of(2, [Zero(3), Put(100, 0, b"\0")]).data], before)
        self.assertEqual((sorted(of(after)), after[1].mask, after[1].data), ([4], 0, b""))

    def test_full_pages_take_a_quarter_of_a_block_each_and_zeros_none(self) -> None:
        full = Image(0, (1 << PAGES) - 1, self.chance.randbytes(PAGES * PAGE_SIZE))
        sizes = [len(block) for block in blocks_of([full] * 4)]
        self.assertEqual((len(sizes), set(sizes[:-1])), (65, {BLOCK_SIZE}))
        page = b"\0" * 5000 + b"abc" + b"\0" * 100 + b"d" + bytes(PAGE_SIZE - 5104)
        [block] = blocks_of([Image(0, 2, page)])
        self.assertEqual(
            Block.decode(labelled([block], 7)[0]).records,
            (Put(1, 5000, b"abc"), Put(1, 5103, b"d")),
        )
        self.assertEqual(list(blocks_of([Image(5, 0, b"")])), [])

    def test_an_end_mark_of_the_vfs_is_known(self) -> None:
        # As clients/c writes it: the last record of a transaction's last block, with the block's position.
        mark = b"plfile01" + (77).to_bytes(8, "big") + bytes(24)
        data = Block.of(77, [Put(5, 9, b"page"), Put(0, 0, mark)]).data
        self.assertEqual(data[-49:-24], MARK + data[:8])
