"""DICONDE and DICOM, whose files are of one format; each frame is a film."""
import io
import logging
import warnings

from said import Ended, package
from scan import Scan, spacing_of

AGAIN = "Have it sent or written again."
LOSSY = {"1.2.840.10008.1.2.4.50", "1.2.840.10008.1.2.4.51", "1.2.840.10008.1.2.4.81"}
MAYBE_LOSSY = {"1.2.840.10008.1.2.4.91", "1.2.840.10008.1.2.4.93"}  # JPEG 2000, which packs either way
FILMS = "1.2.840.10008.1.2.4.1"  # this and what begins with it: MPEG and its like
UNPACK = "Unpack it by: gdcmconv --raw FILE NEW.dcm (Debian: libgdcm-tools)"

# What DICONDE (ASTM E2339) calls fields that it shares with DICOM, by DCMTK's dictionary of it, diconde.dic. The last one is
# in no dictionary of DICONDE that is at hand, and keeps DICOM's name.
COMPONENT = {"PatientName": "ComponentName", "PatientID": "ComponentIDNumber",
             "PatientBirthDate": "ComponentManufacturingDate", "OtherPatientIDs": "OtherComponentIDs",
             "OtherPatientNames": "OtherComponentNames", "EthnicGroup": "MaterialName", "PatientComments": "ComponentNotes",
             "ReferringPhysicianName": "ComponentOwnerName", "BodyPartExamined": "BodyPartExamined"}
PARTS = 0x0014  # the group of DICONDE's own fields, which pydicom's dictionary names
# Until 2011 they were private ones of this group and creator: 28 there is what became 0014,0028. Two had other names.
OLDER, CREATOR = 0x0011, "astm.org/diconde/iod/Component"
OLDER_NAMES = {0x44: "MaterialPropertiesFileID", 0x45: "MaterialPropertiesFileFormat"}
SPACINGS = ("PixelSpacing", "ImagerPixelSpacing", "NominalScannedPixelSpacing")
BINARY = {"SQ", "OB", "OW", "OF", "OD", "OL", "OV", "UN"}


def text_of(value):
    """A field's value as JSON has it."""
    if isinstance(value, (list, tuple)) or type(value).__name__ == "MultiValue":
        return [text_of(one) for one in value]
    return str(value)


def number_of(data, name, usual=None):
    try:
        value = data.get(name, None)
        return usual if value is None or value == "" else int(value)
    except (TypeError, ValueError):
        raise Ended("its field %s is no number" % name, AGAIN) from None


def older_text(value):
    """The text of a private field. Where the file does not say of what kind it is, its bytes come as they are."""
    if not isinstance(value, bytes):
        return text_of(value)
    words = [word.strip(" \0") for word in value.decode("ascii", "replace").split("\\")]
    return words if len(words) > 1 else words[0]


def name_of(element):
    """What DICONDE calls a field of its own; nothing for any other."""
    by_number = package("pydicom").datadict.keyword_for_tag
    if element.tag.group == PARTS and element.VR not in BINARY:
        return element.keyword or str(element.tag)
    if element.tag.group == OLDER and element.private_creator == CREATOR:
        last = element.tag.element & 0xff
        return OLDER_NAMES.get(last) or by_number((PARTS, last)) or str(element.tag)
    return ""


def component(data):
    """DICONDE's fields of the component and its parts."""
    found = {ours: text_of(data.get(theirs)) for theirs, ours in COMPONENT.items() if data.get(theirs, "") not in ("", None)}
    for element in data:
        name = name_of(element)
        if name and element.value not in ("", b"", None):
            found.setdefault(name, older_text(element.value))
    return found or None


def spacing(data):
    for name in SPACINGS:
        value = data.get(name, None)
        if value is not None and value != "" and len(value) == 2:
            return spacing_of(float(value[0]), float(value[1]), name)
    return None


def rescale(data):
    """What would make other numbers of the samples; they are left as they are."""
    if "RescaleSlope" not in data and "RescaleIntercept" not in data and "ModalityLUTSequence" not in data:
        return None
    return {"slope": text_of(data.get("RescaleSlope", None)), "intercept": text_of(data.get("RescaleIntercept", None)),
            "type": text_of(data.get("RescaleType", None)), "table": "ModalityLUTSequence" in data}


def check_packing(data):
    """Refuses what altered greys on its way. A JPEG 2000 says itself whether it did."""
    syntax = str(getattr(getattr(data, "file_meta", None), "TransferSyntaxUID", ""))
    lossy = str(data.get("LossyImageCompression", ""))
    unsaid = syntax in MAYBE_LOSSY and lossy not in ("00", "01")
    if lossy == "01" or syntax in LOSSY or syntax.startswith(FILMS) or unsaid:
        raise Ended("its greys %s altered by packing (%s)" % ("may have been" if unsaid else "were", syntax or "by its own word"),
                    "Have the scan given again, packed without loss or not at all.")


def check_kind(data):
    samples, kind = number_of(data, "SamplesPerPixel", 1), str(data.get("PhotometricInterpretation", ""))
    if "PixelData" not in data:
        raise Ended("it is cut off, or has no picture of whole numbers in it",
                    "Have the scan itself sent again, not its report.")
    if samples != 1 or kind not in ("MONOCHROME1", "MONOCHROME2"):
        raise Ended("it is not grey: %d samples a pixel, %s" % (samples, kind or "of no kind"),
                    "Have the scan given in grey (MONOCHROME2).")
    allocated, stored = number_of(data, "BitsAllocated", 0), number_of(data, "BitsStored", 0)
    high = number_of(data, "HighBit", stored - 1)
    if allocated not in (8, 16) or not 1 <= stored <= allocated or not stored - 1 <= high < allocated:
        raise Ended("it has %d of %d bits a sample up to bit %d, and 8 or 16 are taken" % (stored, allocated, high),
                    "Have the scan given with 16 bits a sample.")
    return kind, allocated, stored, high + 1 - stored


def check_length(data, allocated):
    """The bytes of an unpacked picture are all there."""
    due = (number_of(data, "Rows", 0) * number_of(data, "Columns", 0) * (number_of(data, "NumberOfFrames", 1) or 1)
           * allocated // 8)
    if due == 0:
        raise Ended("it says %s by %s pixels" % (data.get("Columns", "no"), data.get("Rows", "no")), AGAIN)
    if not data.file_meta.TransferSyntaxUID.is_compressed and len(data.PixelData) < due:
        raise Ended("it is cut off: its picture takes %d bytes, and %d are there" % (due, len(data.PixelData)), AGAIN)


def frames_of(data):
    """The samples as they are stored. What pydicom raises for a packing that it lacks differs from packing to packing."""
    syntax = data.file_meta.TransferSyntaxUID
    try:
        greys = data.pixel_array
    except (NotImplementedError, RuntimeError, AttributeError, ValueError, OSError, TypeError, KeyError, EOFError) as fault:
        if syntax.is_compressed:
            raise Ended("it is packed as %s, which cannot be unpacked here" % syntax.name, UNPACK) from None
        raise Ended("it is cut off or damaged: %s" % (str(fault).splitlines() or ["no reason given"])[0], AGAIN) from None
    greys = greys.astype(greys.dtype.newbyteorder("="), copy=False)  # bits are looked at, whatever the file's order
    return [greys] if greys.ndim == 2 else list(greys)


def stored_bits(frame, stored, shift, signed):
    """The sample out of its bits. Others may hold marks that were drawn on the scan."""
    numpy = package("numpy")
    whole = frame.view(numpy.uint8 if frame.dtype.itemsize == 1 else numpy.uint16)
    sample = (whole >> shift) & (2 ** stored - 1)
    if not signed:
        return sample
    sample = sample.astype(numpy.int32)
    return (sample - ((sample >> (stored - 1)) << stored)).astype(numpy.int16)


def scan_of(data):
    numpy = package("numpy")
    check_packing(data)
    kind, allocated, stored, shift = check_kind(data)
    if getattr(getattr(data, "file_meta", None), "TransferSyntaxUID", None) is None:
        raise Ended("it does not say how it is packed", AGAIN)
    check_length(data, allocated)
    signed = number_of(data, "PixelRepresentation", 0) == 1
    found = frames_of(data)
    if any(frame.ndim != 2 or frame.dtype.itemsize > 2 for frame in found):
        raise Ended("it is damaged: its frames are no pictures", AGAIN)
    frames = [stored_bits(numpy.ascontiguousarray(frame), stored, shift, signed) for frame in found]
    scan = Scan("DICOM", frames, stored, -1 if signed else 2 ** stored - 1, signed,
                kind if kind == "MONOCHROME1" else "", spacing(data), rescale(data), component(data))
    unsigned = [frame.view(numpy.uint8 if frame.dtype.itemsize == 1 else numpy.uint16) for frame in found]
    if not signed and any((whole >> shift).max() >= 2 ** stored for whole in unsigned):
        scan.notes.append("bits above the %d of a sample are set, and left out" % stored)
    return scan


def read(data, forced=False):
    """`forced` for a file that begins without the mark of one."""
    pydicom = package("pydicom")
    package("numpy")
    logging.getLogger("pydicom").setLevel(logging.CRITICAL)
    try:
        with warnings.catch_warnings():
            warnings.simplefilter("ignore")
            return scan_of(pydicom.dcmread(io.BytesIO(data), force=forced))
    except Ended:
        raise
    except MemoryError:
        raise
    except Exception as fault:  # pydicom reads fields as they are asked for, and raises whatever a broken one brings about
        raise Ended("it is cut off or damaged: %s" % (str(fault).splitlines() or [type(fault).__name__])[0], AGAIN) from None
