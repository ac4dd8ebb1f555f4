"""What each attack may cost our end at most: what it takes today, with a tenth of room for the heap and a quarter for the instructions.
Where it should take less the reason says so: it is to fall."""

import dataclasses


@dataclasses.dataclass
class Bound:
    sizes: tuple
    # Bytes at the greatest size, and what takes them.
    heap: int
    heap_why: str
    # With which power of the size the instructions of a payload may grow where it doubles at least, and why.
    growth: float
    growth_why: str
    # Instructions of a payload at the greatest size.
    count: int


@dataclasses.dataclass
class Beside:
    """At each size at most so many times quinn's instructions of a payload, and so many times the pages that the kernel gives its process."""

    count: float
    pages: float = 1.2


BESIDE = {
    "bytes-apart": Beside(count=3.2),
    "many-apart": Beside(count=3.2),
    # At 4,096 a payload takes two pages of 2 KiB for each of its 64 pairs, 264 KB, and gives them back as the reset is read. What is free at the
    # heap's end glibc hands to the kernel above 128 KiB, and asks for it anew: 13.5 pages for a payload, 3,465 in the whole play. With
    # glibc.malloc.trim_threshold at 1 MiB there are 88. With pages of 1.5 KiB the whole play has 889, half of quinn's; but then a ring of 4,096
    # and two pages take more than four times what their bytes span, which is proved to be the most.
    "edges-apart": Beside(count=3.2, pages=2.2),
    "drawn-up": Beside(count=3.2),
    "said-beside-limits": Beside(count=4),
    "stops-beside-limits": Beside(count=4),
    "news-beside-stopped": Beside(count=0.65),
    "news-beside-own-stopped": Beside(count=0.6),
    # From here to the strides each call of next_event looks at words of 64 streams of which some were told, up to all that the connection
    # ever had. All of these are to fall to 3.
    "news-beside-open": Beside(count=54),
    "news-beside-half-over": Beside(count=55),
    "news-beside-half-told": Beside(count=27),
    "news-beside-half-read": Beside(count=27),
    "news-beside-short": Beside(count=18),
    "last-of-told": Beside(count=29),
    "ends-in-strides": Beside(count=15),
    "resets-above-blocked": Beside(count=2.6),
}

BOUNDS = {
    "two-stopped": Bound(
        sizes=(256, 1024, 4096),
        heap=112_000,
        heap_why="24 bytes of each stream that is over, and room to grow",
        growth=0.1,
        growth_why="the two streams that were touched are looked at, and no other",
        count=2640,
    ),
    "reset-over-holes": Bound(
        sizes=(2, 4, 8),
        heap=1_340,
        heap_why="24 bytes and a box of 64 of each stream that was reset, and the first words of the marks of its type",
        growth=0.2,
        growth_why="each payload is as long",
        count=146_000,
    ),
    "stopped-holes": Bound(
        sizes=(6400, 12_800, 25_600),
        heap=459_000,
        heap_why="16 bytes of each byte that came after the stop, without an end: it is to fall",
        growth=0.1,
        growth_why="no search at the last run",
        count=143_000,
    ),
    "far-byte": Bound(
        sizes=(16_383, 65_535, 262_143),
        heap=100_000,
        heap_why="24 bytes and a box of 64 of each stream that was reset",
        growth=0.02,
        growth_why="a page of 2 KiB for each byte, wherever it lies",
        count=53_700,
    ),
    "near-and-far-byte": Bound(
        sizes=(8192, 32_768, 131_072),
        heap=100_000,
        heap_why="24 bytes and a box of 64 of each stream that was reset",
        growth=0.02,
        growth_why="a ring for the one byte and a page of 2 KiB for the other, wherever that lies",
        count=81_300,
    ),
    "bytes-apart": Bound(
        sizes=(2047, 2048, 4096, 16_383),
        heap=100_000,
        heap_why="24 bytes and a box of 64 of each stream that was reset",
        growth=0.59,
        growth_why="up to 2,048 apart they stand in a ring, and from there on each in a page of 2 KiB, however far; below 2,048 a payload got a little cheaper",
        count=143_000,
    ),
    "many-apart": Bound(
        sizes=(2047, 2048, 4096, 16_383),
        heap=25_500,
        heap_why="24 bytes and a box of 64 of each stream that was reset",
        growth=0.82,
        growth_why="the same; below 2,048 a payload got a little cheaper",
        count=171_000,
    ),
    "edges-apart": Bound(
        sizes=(2047, 2048, 4096, 16_383),
        heap=25_500,
        heap_why="24 bytes and a box of 64 of each stream that was reset",
        growth=1.56,
        growth_why="at 4,096 each two bytes take two pages, and below they stand in a ring, which got a little cheaper; where both fall into "
        "one page it is cheaper again",
        count=169_000,
    ),
    "drawn-up": Bound(
        sizes=(2047, 2048, 4096, 16_383),
        heap=402_000,
        heap_why="24 bytes and a box of 64 of each stream that was reset",
        growth=0.6,
        growth_why="at 2,047 both stand in a ring, at 2,048 a page moves into one, and at 4,096 each takes a page",
        count=215_000,
    ),
    "pages-then-filled": Bound(
        sizes=(60, 252, 1020),
        heap=(1 << 21) + 100 * 1020,
        heap_why="a ring of the least power of two that reaches to the last page, and a run for each byte",
        growth=0.15,
        growth_why="the frame that fills the gap moves all pages into the ring, each once; pages are found by halves",
        count=13_000,
    ),
    "window-downwards": Bound(
        sizes=(1 << 15, 1 << 16, 1 << 17),
        heap=10 << 17,
        heap_why="a run of 16 bytes for each second byte, and the ring",
        growth=0.1,
        growth_why="searches in as many runs",
        count=220_000,
    ),
    "window-upwards": Bound(
        sizes=(1 << 15, 1 << 16, 1 << 17),
        heap=10 << 17,
        heap_why="a run of 16 bytes for each second byte, and the ring",
        growth=0.1,
        growth_why="no search at the last run",
        count=149_000,
    ),
    "window-scattered": Bound(
        sizes=(1 << 15, 1 << 16, 1 << 17),
        heap=14 << 17,
        heap_why="a run for each second byte, in blocks that are two thirds full, and the ring",
        growth=0.15,
        growth_why="searches in as many runs",
        count=355_000,
    ),
    "byte-on-each": Bound(
        sizes=(1024, 2048, 4096),
        heap=459 * 4096,
        heap_why="what is live of each stream, its halves, and a ring of 64 bytes for its first byte",
        growth=0.1,
        growth_why="each stream is found by its number",
        count=253_000,
    ),
    "three-quarters": Bound(
        sizes=(2, 4, 8),
        heap=58_200,
        heap_why="a page for the byte at the end of each window, and a ring of two pages for what came last",
        growth=0.1,
        growth_why="each stream is found by its number",
        count=4020,
    ),
    "acked-ranges": Bound(
        sizes=(75, 150, 300),
        heap=103_000,
        heap_why="the room of the last packet, for good, and some 70 bytes of each outstanding one",
        growth=1.1,
        growth_why="each range is read once, and each packet told once",
        count=406_000,
    ),
    "acked-padded": Bound(
        sizes=(50, 100, 200),
        heap=45_200,
        heap_why="the room of the last packet, for good, and some 70 bytes of each outstanding one",
        growth=0.6,
        growth_why="the padding, which is most of the least size, is read once, and each packet told once",
        count=275_000,
    ),
    "all-but-first": Bound(
        sizes=(1250, 2500, 5000),
        heap=399_000,
        heap_why="a slot of each packet from the first outstanding one on",
        growth=0.1,
        growth_why="the empty slots below the packet stay",
        count=3130,
    ),
    "ack-again": Bound(
        sizes=(4000, 8000, 16_000),
        heap=770_000,
        heap_why="a slot of each packet from the first outstanding one on",
        growth=0.35,
        growth_why="a look at a word for each 4,096 packets",
        count=97_800,
    ),
    "one-ping": Bound(
        sizes=(1200, 4096, 16_383),
        heap=731,
        heap_why="room for the six items of the connection itself, and for a packet's record",
        growth=0.2,
        growth_why="memory that isn't touched",
        count=2170,
    ),
    "ping-beside-limits": Bound(
        sizes=(1, 100, 4096),
        heap=1_440_000,
        heap_why="the records, buffers and items of the streams",
        growth=0.02,
        growth_why="no half is looked at of which all was told: 4,096 take at most 1.2 times what one takes",
        count=1030,
    ),
    "ping-beside-starved": Bound(
        sizes=(1, 100, 4096),
        heap=1_290_000,
        heap_why="the records and buffers of the streams",
        growth=0.02,
        growth_why="no half is looked at whose bytes take credit",
        count=1040,
    ),
    "ping-beside-resets": Bound(
        sizes=(1, 100, 4096),
        heap=1_800_000,
        heap_why="the records and items of the streams, and what is live of each until its reset is acknowledged",
        growth=0.02,
        growth_why="no half is looked at of which all was told",
        count=1030,
    ),
    "news-beside-limits": Bound(
        sizes=(100, 640, 4096),
        heap=1_780_000,
        heap_why="what is live of each stream, with its ten bytes",
        growth=0.001,
        growth_why="no writer is looked at whose stream has no credit",
        count=1060,
    ),
    "news-beside-starved": Bound(
        sizes=(100, 640, 4096),
        heap=858_000,
        heap_why="what is live of each stream",
        growth=0.001,
        growth_why="no writer is looked at where the connection has no credit",
        count=1020,
    ),
    "news-beside-full": Bound(
        sizes=(100, 640, 4096),
        heap=1_780_000,
        heap_why="what is live of each stream, with its ten bytes",
        growth=0.001,
        growth_why="no writer is looked at whose buffer is full",
        count=822,
    ),
    "said-beside-limits": Bound(
        sizes=(100, 640, 4096),
        heap=1_780_000,
        heap_why="what is live of each stream, with its ten bytes",
        growth=0.01,
        growth_why="no writer is looked at whose stream has no credit",
        count=185_000,
    ),
    "stops-beside-limits": Bound(
        sizes=(100, 640, 4096),
        heap=1_780_000,
        heap_why="what is live of each stream, with its ten bytes",
        growth=0.025,
        growth_why="no writer is looked at whose stream has no credit",
        count=19_600,
    ),
    "blocked-below": Bound(
        sizes=(500, 2000, 8000),
        heap=762_000,
        heap_why="the packets",
        growth=0.02,
        growth_why="a mark tells whether the limit is outstanding",
        count=5840,
    ),
    # At 1,024 glibc consolidates its heap among the payloads that are counted: 100,000 instructions, once.
    "stop-downwards": Bound(
        sizes=(64, 256, 1000),
        heap=510_000,
        heap_why="the records of the streams, and what is live of each until its reset is acknowledged",
        growth=0.02,
        growth_why="marks tell what is due, whatever the number of streams",
        count=3290,
    ),
    "stops-beside-blocked": Bound(
        sizes=(1000, 2000, 4000),
        heap=1_420_000,
        heap_why="the records and items of the streams, and what is live of each until its reset is acknowledged",
        growth=0.1,
        growth_why="a half of which all was told is looked at once, whatever is due below it",
        count=199_000,
    ),
    "stop-again": Bound(
        sizes=(40, 80, 160),
        heap=28_400,
        heap_why="the room of the last packet, for good",
        growth=1.05,
        growth_why="as many frames",
        count=82_700,
    ),
    "half-over": Bound(
        sizes=(64, 256, 1024),
        heap=340_000,
        heap_why="a half of each stream that isn't over, with a buffer or a ring, and 24 bytes of each half",
        growth=0.81,
        growth_why="one word of each half's marks for 64 streams, and so little beside that 64 streams cost half of what they did",
        count=670,
    ),
    "news-beside-stopped": Bound(
        sizes=(4096, 16_384, 65_536),
        heap=3_960_000,
        heap_why="50 bytes of each stream that is over, and room to grow",
        growth=0.1,
        growth_why="an end that was told notes that its stop is told, too, so words of marks are full, and passed",
        count=1140,
    ),
    "news-beside-own-stopped": Bound(
        sizes=(4096, 16_384, 65_536),
        heap=2_400_000,
        heap_why="24 bytes of each stream that is over, what is kept of a reset, and room to grow",
        growth=0.1,
        growth_why="the same",
        count=1140,
    ),
    "news-beside-open": Bound(
        sizes=(4096, 16_384, 65_536),
        heap=4_310_000,
        heap_why="50 bytes of each stream that is over, and what is live of one in 64",
        growth=1.02,
        growth_why="a word of the marks of each half for each 64 streams that ever were, as long as one of them is open: it is to fall to 0.1",
        count=123_000,
    ),
    "news-beside-half-over": Bound(
        sizes=(4096, 16_384, 65_536),
        heap=19_700_000,
        heap_why="what is live of each stream, with a ring for the byte of each second one",
        growth=1.02,
        growth_why="the same: it is to fall to 0.1",
        count=113_000,
    ),
    "news-beside-half-told": Bound(
        sizes=(4096, 16_384, 65_536),
        heap=24_500_000,
        heap_why="what is live of each stream, and a ring for its byte",
        growth=1.0,
        growth_why="a word of the marks for each 64 streams, as long as not all were told: it is to fall to 0.1",
        count=58_700,
    ),
    "news-beside-half-read": Bound(
        sizes=(4096, 16_384, 65_536),
        heap=24_500_000,
        heap_why="what is live of each stream, and a ring for its bytes",
        growth=1.0,
        growth_why="the same: it is to fall to 0.1",
        count=58_700,
    ),
    "news-beside-short": Bound(
        sizes=(4096, 16_384, 65_536),
        heap=24_000_000,
        heap_why="what is live of each stream, with its bytes, which aren't acknowledged",
        growth=1.0,
        growth_why="a word of the marks for each 64 streams of which one was cut short: it is to fall to 0.1",
        count=38_400,
    ),
    "last-of-told": Bound(
        sizes=(4096, 16_384, 65_536),
        heap=24_500_000,
        heap_why="what is live of each stream, and a ring for its byte",
        growth=0.96,
        growth_why="the same for those that were told: it is to fall to 0.1",
        count=121_000,
    ),
    "ends-in-strides": Bound(
        sizes=(1024, 4096, 16_384),
        heap=2_130_000,
        heap_why="what each stream leaves that is over, and room to grow",
        growth=0.9,
        growth_why="the same for each event: it is to fall to 0.1",
        count=143_000,
    ),
    "crowd-by-one": Bound(
        sizes=(4096, 16_384, 65_536),
        heap=26_300_000,
        heap_why="364 bytes of each idle bidirectional stream, which is to stay so",
        growth=1.02,
        growth_why="each stream is opened",
        count=45_000_000,
    ),
    "resets-above-blocked": Bound(
        sizes=(1024, 4096, 16_384),
        heap=16_000_000,
        heap_why="what is live of each stream, with its bytes, and of those that were reset",
        growth=0.02,
        growth_why="marks tell what is due, whatever waits below",
        count=144_000,
    ),
}
