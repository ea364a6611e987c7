"""Grey TIFF of 8 to 16 bits; each page is a frame."""
import io
import logging

from said import Ended, package
from scan import Scan, spacing_of

GREY = "Have the scan given as a grey TIFF or PNG, without colour, palette or transparency."
AGAIN = "Have it sent or written again."
LOSSY = {6: "JPEG", 7: "JPEG", 33003: "JPEG 2000", 33004: "JPEG 2000", 33005: "JPEG 2000", 34712: "JPEG 2000", 34887: "LERC",
         34892: "JPEG", 34933: "PNG", 34934: "JPEG XR", 22610: "JPEG XR", 50001: "WebP", 50002: "JPEG XL"}
INVERTED = 0  # MinIsWhite
SMALLER = 1  # the bit of a page that is another's picture once more, made small


class Heard(logging.Handler):
    """What the reader warns of: a page list that breaks off is told in no other way."""

    def __init__(self):
        super().__init__(logging.WARNING)
        self.lines = []

    def emit(self, record):
        self.lines.append(record.getMessage())


def whole(page, size):
    """All parts of the picture lie inside the file."""
    parts = list(zip(page.dataoffsets, page.databytecounts))
    if not parts or any(at == 0 or count == 0 for at, count in parts):
        raise Ended("it is damaged: parts of its picture are nowhere", AGAIN)
    end = max(at + count for at, count in parts)
    if end > size:
        raise Ended("it is cut off: its picture goes up to byte %d, and the file has %d" % (end, size), AGAIN)


def check(page, size):
    """That a page is a film that can be kept as it is."""
    if "PhotometricInterpretation" not in page.tags:
        raise Ended("it does not say whether 0 is black or white", "Have it written anew, with PhotometricInterpretation.")
    photometric = int(page.photometric)
    if page.samplesperpixel != 1 or photometric not in (0, 1):
        kind = getattr(page.photometric, "name", photometric)
        raise Ended("it is not grey: %d samples a pixel, %s" % (page.samplesperpixel, kind), GREY)
    if int(page.compression) in LOSSY:
        raise Ended("it is packed by %s, which may have altered its greys" % LOSSY[int(page.compression)],
                    "Have the scan given again, packed by nothing, LZW or deflate.")
    if page.imagedepth != 1:
        raise Ended("it is a volume, %d deep" % page.imagedepth, "Have each layer given as a page of its own.")
    if page.sampleformat not in (1, 2, None) or not 8 <= page.bitspersample <= 16:
        raise Ended("its samples are %s of %d bits, and whole numbers of 8 to 16 are taken"
                    % ("floats" if page.sampleformat == 3 else "numbers", page.bitspersample),
                    "Have the scan given with 16 bits a sample.")
    whole(page, size)


def by_other(data, page, why):
    """What tifffile cannot unpack without further packages, LZW before all, Pillow can. Of one byte a sample it turns
    MinIsWhite round, which is undone here."""
    numpy, image = package("numpy"), package("PIL.Image")
    image.MAX_IMAGE_PIXELS = None
    try:
        picture = image.open(io.BytesIO(data))
        picture.seek(page.index)
        greys = numpy.asarray(picture)
    except (OSError, SyntaxError, ValueError, EOFError, KeyError):
        raise Ended("it is packed in a manner that cannot be unpacked here: %s" % why,
                    "Unpack it by: tiffcp -c none FILE NEW.tif (Debian: libtiff-tools)") from None
    if greys.ndim != 2 or page.bitspersample not in (8, 16) or page.sampleformat == 2:
        raise Ended("it is packed in a manner that cannot be unpacked here: %s" % why,
                    "Unpack it by: tiffcp -c none FILE NEW.tif (Debian: libtiff-tools)")
    greys = greys.astype(numpy.uint8 if page.bitspersample == 8 else numpy.uint16)
    return 255 - greys if int(page.photometric) == INVERTED and page.bitspersample == 8 else greys


def narrow(data, page):
    """Samples of 9 to 15 bits, one right behind another; each row begins with a byte of its own."""
    numpy = package("numpy")
    width, height, bits = page.imagewidth, page.imagelength, page.bitspersample
    if int(page.compression) != 1 or page.is_tiled or page.fillorder != 1 or page.sampleformat == 2:
        raise Ended("its %d bits a sample are packed in a manner that cannot be unpacked here" % bits,
                    "Have the scan given with 16 bits a sample.")
    row = (width * bits + 7) // 8
    raster = b"".join(data[at:at + count] for at, count in zip(page.dataoffsets, page.databytecounts))
    if len(raster) < row * height:
        raise Ended("it is damaged: its picture takes %d bytes, and %d are there" % (row * height, len(raster)), AGAIN)
    rows = numpy.frombuffer(raster, numpy.uint8, row * height).reshape(height, row)
    greys = numpy.empty((height, width), numpy.uint16)
    weights = (1 << numpy.arange(bits)[::-1]).astype(numpy.uint16)
    for y in range(height):
        greys[y] = numpy.unpackbits(rows[y])[:width * bits].reshape(width, bits) @ weights
    return greys


def samples(data, page):
    numpy = package("numpy")
    if page.bitspersample not in (8, 16):
        return narrow(data, page)
    try:
        greys = page.asarray()
    except (ImportError, AttributeError, NotImplementedError) as why:
        greys = by_other(data, page, why)
    except ValueError as why:
        # tifffile says so of a codec that it lacks, and of damage too
        if "imagecodecs" not in str(why) and "cannot decompress" not in str(why):
            raise
        greys = by_other(data, page, why)
    if greys.shape != (page.imagelength, page.imagewidth) or greys.dtype.itemsize > 2:
        raise Ended("it is damaged: %s samples where %d by %d are due"
                    % (greys.shape, page.imagewidth, page.imagelength), AGAIN)
    return numpy.ascontiguousarray(greys)


def spacing(page):
    """By the resolution, where it has a unit."""
    unit = {2: 25.4, 3: 10.0}.get(int(page.tags.valueof("ResolutionUnit", 2)))
    found = []
    for name in ("YResolution", "XResolution"):
        value = page.tags.valueof(name, None)
        if unit is None or value is None or value[0] == 0 or value[1] == 0:
            return None
        found.append(unit * value[1] / value[0])
    return spacing_of(found[0], found[1], "XResolution, YResolution")


def pages_of(tiff, heard):
    """The pages that are films. A list of pages that breaks off loses films, and so does ImageJ's, which has one page for
    all of them in a large file."""
    pages = [page.aspage() for page in tiff.pages]
    if any("page offset" in line or "tag list" in line or "offset to first page" in line for line in heard.lines):
        raise Ended("it is cut off or damaged: its list of pages breaks off behind %d" % len(pages), AGAIN)
    films = [page for page in pages if not page.subfiletype & SMALLER]
    if not films:
        raise Ended("it has no page", AGAIN)
    images = (tiff.imagej_metadata or {}).get("images", 1)
    if images > len(films):
        raise Ended("it has %d frames behind %d pages, as ImageJ writes large files" % (images, len(films)),
                    "Have each frame given as a page or a file of its own.")
    return films, len(pages) - len(films)


def scan_of(data, tiff, heard):
    films, smaller = pages_of(tiff, heard)
    for page in films:
        check(page, len(data))
    one = films[0]
    alike = {(page.bitspersample, page.sampleformat, int(page.photometric)) for page in films}
    if len(alike) > 1:
        raise Ended("its pages differ in their bits or in what is white", "Have each page given as a file of its own.")
    signed = one.sampleformat == 2
    frames = [samples(data, page) for page in films]
    scan = Scan("TIFF", frames, one.bitspersample, -1 if signed else 2 ** one.bitspersample - 1, signed,
                "MinIsWhite" if int(one.photometric) == INVERTED else "", spacing(one))
    if smaller:
        scan.notes.append("%d pages are other pages' pictures made small, and left out" % smaller)
    return scan


def read(data):
    tifffile = package("tifffile")
    heard = Heard()
    logger = logging.getLogger("tifffile")
    logger.addHandler(heard)
    logger.propagate = False
    try:
        with tifffile.TiffFile(io.BytesIO(data)) as tiff:
            return scan_of(data, tiff, heard)
    except (tifffile.TiffFileError, ValueError, KeyError, IndexError, TypeError, EOFError, OSError, OverflowError) as fault:
        raise Ended("it is cut off or damaged: %s" % str(fault).splitlines()[0] if str(fault) else "it is cut off or damaged",
                    AGAIN) from None
    finally:
        logger.removeHandler(heard)
