"""A scan as its file has it: frames of samples, and what the file says of them."""
from dataclasses import dataclass, field


def spacing_of(rows, columns, where):
    """Millimetres a pixel, in as many digits as anyone measures."""
    return {"rows_mm": float("%.9g" % rows), "columns_mm": float("%.9g" % columns), "from": where}


@dataclass
class Scan:
    kind: str  # of file
    frames: list  # arrays of two dimensions, whole numbers of at most 16 bits
    bits: int  # a sample has, by the file
    top: int  # the greatest sample that there may be, by the file
    signed: bool = False
    inverted: str = ""  # what the file calls it where its least sample is the lightest
    spacing: dict = None  # mm a pixel
    rescale: dict = None  # what the file would have done to samples, left alone
    component: dict = None  # DICONDE's fields of the component and part
    notes: list = field(default_factory=list)  # what was seen to on the way
