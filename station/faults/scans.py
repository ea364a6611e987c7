"""scans.py FILM.pgm FOLDER: writes the sample film as scanners and archives would, and files that have to be refused, for
station/faults/import.sh. Needs python3-numpy, python3-pydicom, python3-tifffile and python3-pil from Debian.
"""
import io
import os
import struct
import sys
import warnings

import numpy
import pydicom
import tifffile
from PIL import Image
from pydicom.dataset import FileDataset, FileMetaDataset
from pydicom.encaps import encapsulate
from pydicom.uid import (ExplicitVRBigEndian, ExplicitVRLittleEndian, ImplicitVRLittleEndian, JPEG2000, JPEG2000Lossless,
                         JPEGBaseline8Bit, JPEGLosslessSV1, RLELossless)

warnings.simplefilter("ignore")


def read(path):
    """The sample's greys."""
    with open(path, "rb") as source:
        head, raster = source.read().split(b"4095\n", 1)
    width, height = (int(word) for word in head.split()[1:])
    return numpy.frombuffer(raster, ">u2").reshape(height, width).astype(numpy.uint16)


def pgm(name, greys, maxval, head=b""):
    kind = ">u2" if maxval > 255 else "u1"
    with open(name, "wb") as out:
        out.write(b"P5\n%s%d %d\n%d\n" % (head, greys.shape[1], greys.shape[0], maxval) + greys.astype(kind).tobytes())


# ---- DICONDE and DICOM

def dicom(greys, stored=12, kind="MONOCHROME2", syntax=ExplicitVRLittleEndian, **fields):
    """A file's fields, with the film in them."""
    meta = FileMetaDataset()
    meta.MediaStorageSOPClassUID = "1.2.840.10008.5.1.4.1.1.1.1"
    meta.MediaStorageSOPInstanceUID = "1.2.3.4.5"
    meta.TransferSyntaxUID = syntax
    data = FileDataset("", {}, file_meta=meta, preamble=b"\0" * 128)
    data.SOPClassUID, data.SOPInstanceUID = meta.MediaStorageSOPClassUID, meta.MediaStorageSOPInstanceUID
    data.is_little_endian = syntax != ExplicitVRBigEndian
    data.is_implicit_VR = syntax == ImplicitVRLittleEndian
    data.Rows, data.Columns = greys.shape[-2:]
    data.SamplesPerPixel, data.PhotometricInterpretation = 1, kind
    data.BitsAllocated, data.BitsStored, data.HighBit = 8 * greys.dtype.itemsize, stored, stored - 1
    data.PixelRepresentation = 1 if greys.dtype.kind == "i" else 0
    if greys.ndim == 3:
        data.NumberOfFrames = greys.shape[0]
    data.PixelData = greys.astype(greys.dtype.newbyteorder("<" if data.is_little_endian else ">")).tobytes()
    data["PixelData"].VR = "OW" if greys.dtype.itemsize == 2 else "OB"
    for name, value in fields.items():
        setattr(data, name, value)
    return data


def save(name, data):
    data.save_as(name, write_like_original=False)


def older(data):
    """With DICONDE's own fields as they were until 2011: private ones."""
    block = data.private_block(0x0011, "astm.org/diconde/iod/Component", create=True)
    for number, kind, value in ((0x28, "ST", "Pipeworks"), (0x30, "DS", ["12.5", "14"]), (0x44, "ST", "steel.xml")):
        block.add_new(number, kind, value)
    return data


def jpeg2000(film, syntax, **fields):
    """Packed by JPEG 2000, which nothing is lost by here."""
    data, packed = dicom(film, 16, **fields), io.BytesIO()
    Image.fromarray(film).save(packed, "JPEG2000", no_jp2=True)
    data.file_meta.TransferSyntaxUID = syntax
    data.PixelData = encapsulate([packed.getvalue()])
    data["PixelData"].is_undefined_length = True
    return data


def dicoms(film):
    save("diconde.dcm", dicom(film, PatientName="GIRTH^WELD 7", PatientID="W-0007", ComponentManufacturer="Pipeworks",
                              MaterialThickness="12.5", ImagerPixelSpacing=[0.05, 0.1], RescaleSlope="2", RescaleIntercept="-7",
                              RescaleType="US", ComponentWelderIDs=["K1", "K2"]))
    save("implicit.dcm", dicom(film, syntax=ImplicitVRLittleEndian))
    for name, syntax in (("older.dcm", ExplicitVRLittleEndian), ("older-implicit.dcm", ImplicitVRLittleEndian)):
        save(name, older(dicom(film, syntax=syntax, PatientID="W-0008", EthnicGroup="X52", BodyPartExamined="ROOT")))
    save("bigend.dcm", dicom(film, syntax=ExplicitVRBigEndian))
    save("mono1.dcm", dicom(4095 - film, kind="MONOCHROME1"))
    save("negative.dcm", dicom(film.astype(numpy.int16) - 2000, 16))
    save("signed12.dcm", dicom((film.astype(numpy.int16) - 2048), 12))
    save("marks.dcm", dicom(film | (film % 2) * 0x8000))
    save("frames.dcm", dicom(numpy.stack([film[:96], film[96:192], film[192:288]])))
    save("j2k.dcm", jpeg2000(film, JPEG2000Lossless))
    save("j2k-said.dcm", jpeg2000(film, JPEG2000, LossyImageCompression="00"))
    packed = dicom(film)
    packed.compress(RLELossless)
    save("rle.dcm", packed)
    plain = dicom(film)
    plain.save_as("no-mark.dcm", write_like_original=False)
    with open("no-mark.dcm", "rb") as source:
        whole = source.read()
    with open("no-mark.dcm", "wb") as out:
        out.write(whole[132:])  # without preamble and mark, as old archives have them


def bad_dicoms(film):
    rgb = dicom(film, kind="RGB")
    rgb.SamplesPerPixel, rgb.PlanarConfiguration, rgb.BitsAllocated, rgb.BitsStored, rgb.HighBit = 3, 0, 8, 8, 7
    rgb.PixelData = bytes(3 * film.size)
    save("bad-rgb.dcm", rgb)
    save("bad-lossy.dcm", dicom(film, LossyImageCompression="01"))
    save("bad-unsaid.dcm", jpeg2000(film, JPEG2000))
    for name, syntax in (("bad-jpeg.dcm", JPEGBaseline8Bit), ("bad-packed.dcm", JPEGLosslessSV1)):
        data = dicom(film)
        data.file_meta.TransferSyntaxUID = syntax
        data.PixelData = encapsulate([b"\xff\xd8\xff\xc3" + bytes(96) + b"\xff\xd9"])
        data["PixelData"].is_undefined_length = True
        save(name, data)
    empty = dicom(film)
    del empty.PixelData
    save("bad-report.dcm", empty)
    deep = dicom(film)
    deep.BitsAllocated, deep.BitsStored, deep.HighBit = 32, 32, 31
    deep.PixelData = bytes(4 * film.size)
    save("bad-deep.dcm", deep)


# ---- TIFF

def tiffs(film):
    tifffile.imwrite("plain.tif", film, resolution=(254, 508), resolutionunit="INCH")
    tifffile.imwrite("high.tif", film, byteorder=">")
    tifffile.imwrite("deflate.tif", film, compression="zlib", predictor=True)
    tifffile.imwrite("tiles.tif", film, tile=(64, 64))
    tifffile.imwrite("large.tif", film, bigtiff=True)
    tifffile.imwrite("white.tif", 65535 - film, photometric="miniswhite")
    tifffile.imwrite("pages.tif", numpy.stack([film[:96], film[96:192], film[192:288]]), photometric="minisblack")
    tifffile.imwrite("eight.tif", (film >> 4).astype(numpy.uint8))
    Image.fromarray(film).save("lzw.tif", compression="tiff_lzw")
    eight = Image.fromarray((film >> 4).astype(numpy.uint8))
    eight.save("lzw8.tif", compression="tiff_lzw")
    tifffile.imwrite("signed.tif", film.astype(numpy.int16) - 2000)
    for name, greys in (("lzwwhite.tif", 65535 - film), ("lzwwhite8.tif", (255 - (film >> 4)).astype(numpy.uint8))):
        Image.fromarray(greys).save(name, compression="tiff_lzw")
        with tifffile.TiffFile(name, mode="r+b") as tiff:
            tiff.pages[0].tags["PhotometricInterpretation"].overwrite(0)
    narrow("twelve.tif", film)


def narrow(name, film):
    """12 bits a sample, right behind one another, which no writer here makes."""
    height, width = film.shape
    raster = b"".join(int("".join("{:012b}".format(grey) for grey in row), 2).to_bytes(width * 12 // 8, "big") for row in film)
    tags = [(256, 3, width), (257, 3, height), (258, 3, 12), (259, 3, 1), (262, 3, 1), (273, 4, 8), (277, 3, 1), (278, 3, height),
            (279, 4, len(raster))]
    with open(name, "wb") as out:
        out.write(b"II*\0" + struct.pack("<I", 8 + len(raster)) + raster + struct.pack("<H", len(tags)))
        out.write(b"".join(struct.pack("<HHII", tag, kind, 1, value) for tag, kind, value in tags) + bytes(4))


def bad_tiffs(film):
    eight = (film >> 4).astype(numpy.uint8)
    tifffile.imwrite("bad-rgb.tif", numpy.stack([eight] * 3, axis=-1), photometric="rgb")
    Image.fromarray(eight).convert("P").save("bad-palette.tif")
    tifffile.imwrite("bad-float.tif", film.astype(numpy.float32))
    tifffile.imwrite("bad-deep.tif", film.astype(numpy.uint32))
    Image.fromarray(eight).save("bad-jpeg.tif", compression="jpeg")


# ---- PNG, PGM and PAM

def pngs(film):
    Image.fromarray(film.astype(numpy.int32), "I").save("sixteen.png", dpi=(254, 508))
    scaled = (film.astype(numpy.int32) * 65535) // 4095
    Image.fromarray(scaled, "I").save("scaled.png")
    Image.fromarray((film >> 4).astype(numpy.uint8)).save("bytes.png")


def bad_pngs(film):
    eight = Image.fromarray((film >> 4).astype(numpy.uint8))
    eight.convert("P").save("bad-palette.png")
    eight.convert("RGB").save("bad-rgb.png")
    eight.convert("LA").save("bad-alpha.png")
    eight.convert("1").save("bad-bits.png")
    eight.save("bad-photo.jpg")
    eight.convert("RGB").save("bad-colour.ppm")


def maps(film):
    pgm("kept.pgm", film, 4095)
    pgm("deep.pgm", film, 65535, b"# a scanner's comment\n")
    pgm("left.pgm", film << 4, 65535)
    pgm("offset.pgm", film + 30000, 65535)
    wide = film.astype(numpy.int32) * 19
    pgm("wide.pgm", wide + numpy.arange(film.shape[1]) % 3, 65535)
    rows, columns = film.shape
    with open("text.pgm", "wb") as out:
        out.write(b"P2\n# in text\n%d %d\n4095\n" % (columns, rows) + b"\n".join(b" ".join(b"%d" % g for g in row) for row in film))
    with open("any.pam", "wb") as out:
        out.write(b"P7\nWIDTH %d\nHEIGHT %d\nDEPTH 1\nMAXVAL 4095\nTUPLTYPE GRAYSCALE\nENDHDR\n" % (columns, rows))
        out.write(film.astype(">u2").tobytes())
    with open("bad-alpha.pam", "wb") as out:
        out.write(b"P7\nWIDTH 2\nHEIGHT 2\nDEPTH 2\nMAXVAL 255\nTUPLTYPE GRAYSCALE_ALPHA\nENDHDR\n" + bytes(8))
    with open("two.pgm", "wb") as out:
        for part in (film[:96], film[96:192]):
            out.write(b"P5\n%d 96\n4095\n" % columns + part.astype(">u2").tobytes())
    with open("bits.pbm", "wb") as out:
        out.write(b"P4\n16 9\n" + bytes(range(18)))
    long = numpy.resize(film, (300, 9000))
    pgm("bad-long.pgm", long, 4095)


def cut():
    """Files of each kind that end too early."""
    for name, parts in (("plain.tif", 9), ("pages.tif", 9), ("deflate.tif", 9), ("diconde.dcm", 9), ("frames.dcm", 5),
                        ("rle.dcm", 7), ("sixteen.png", 9), ("kept.pgm", 5), ("any.pam", 5)):
        with open(name, "rb") as source:
            whole = source.read()
        stem, end = os.path.splitext(name)
        for part in range(1, parts):
            with open("cut-%s-%d%s" % (stem, part, end), "wb") as out:
                out.write(whole[:len(whole) * part // parts])
        with open("cut-%s-last%s" % (stem, end), "wb") as out:
            out.write(whole[:-1])


def main():
    film = read(sys.argv[1])
    os.chdir(sys.argv[2])
    for make in (dicoms, bad_dicoms, tiffs, bad_tiffs, pngs, bad_pngs, maps):
        make(film)
    cut()
    with open("bad-text.png", "w", encoding="ascii") as out:
        out.write("this is no picture\n")
    open("bad-empty.tif", "w", encoding="ascii").close()


if __name__ == "__main__":
    main()
