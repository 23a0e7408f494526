"""Reads and writes the boxes of MP4 files (ISO/IEC 14496-12) by libmp4_box_codec.

>>> movie = bytes.fromhex("00000020 6d6f6f76 00000008 7472616b 00000010 7472616b 00000008 6d646961")
>>> from mp4_box_codec import File, Ftyp, read
>>> [box.path for box in File(movie).walk()]
['moov', 'moov/trak', 'moov/trak[1]', 'moov/trak[1]/mdia']
>>> Ftyp(major_brand="isom", minor_version=512, compatible_brands=["avc1"]).write().hex(" ", 4)
'00000014 66747970 69736f6d 00000200 61766331'
>>> read(bytes.fromhex("00000010 70617370 00000004 00000003"))
Pasp(hSpacing=4, vSpacing=3)

A fault is an Mp4Error, with its position and path if the bytes are of a file:

>>> File(bytes.fromhex("00000010 6d6f6f76 00000008 6d766864"))["moov/mvhd"].fields
Traceback (most recent call last):
mp4_box_codec.Mp4Error: moov/mvhd at 8: unexpected end of input

`calls` has a function for each call of the library. Their names are also names of this module, such as
`mp4_box_codec.tree`, but `import *` doesn't take them. The five for new files, such as `edit`, are those of `NewFile`.
"""

from . import calls
from ._entries import SoundEntry, VisualEntry
from ._fields import Fields, Matrix, Part, class_of, container, read
from ._library import __version__ as __version__
from .classes import *  # noqa: F401,F403 pylint: disable=wildcard-import,unused-wildcard-import
from .calls import (
    BOX_NOT_FOUND, CUT, END_OF_INPUT, ERROR, INVALID_DATA, LEAF, MOOV_FIRST, MOOV_LAST, NO_HEADER, NO_ROOM, NO_TRACK,
    OK, ORDER_UNKNOWN, OUT_OF_MEMORY, PARENT, REFUSED, SMALL, TABLES, TOO_DEEP, UNKNOWN_BOX, WARNING, CttsRow, ElstRow,
    JsonFault, Mp4Error, Place, Refused, Sample, Span, StscRow, SttsRow, TrunRow, avc1, avcc, box_from_json, boxes,
    check, check_file, check_json, co64, ctts, data, dinf, dref, elst, emsg, esds, fault_name, fields, find,
    fragment_samples, ftyp, hdlr, hev1, hvcc, info, list, mdhd, mehd, mfhd, mp4a, mvhd, normal, samples, smhd,
    status_text, stco, stsc, stsd, stss, stsz, stts, tables, tfdt, tfhd, tkhd, tree, trex, trun, tx3g, url, version,
    vmhd, vp09, vpcc, write_co64, write_ctts, write_dref, write_elst, write_emsg, write_fields, write_ftyp, write_hdlr,
    write_mdhd, write_mehd, write_mfhd, write_mvhd, write_smhd, write_stco, write_stsc, write_stsd, write_stss,
    write_stsz, write_stts, write_tfdt, write_tfhd, write_tkhd, write_trex, write_trun, write_vmhd)
from ._file import Box, Fault, File, units
from ._new_file import Change, NewFile, cut, defragment, edit, faststart, fragment
from ._samples import Samples
from ._track import Track
from ._writer import TrackWriter, Writer

Mp4Error.__module__ = __name__
__all__ = [
    "Box", "Change", "CttsRow", "ElstRow", "Fault", "Fields", "File", "Matrix", "Mp4Error", "NewFile", "Part",
    "Refused", "Sample", "Samples", "SoundEntry", "StscRow", "SttsRow", "Track", "TrackWriter", "TrunRow",
    "VisualEntry", "Writer", "calls", "class_of", "container", "cut", "defragment", "edit", "faststart", "fragment",
    "read", "units",
]
# The names of `classes`. tools/python_classes.py writes them here too, since type checkers read them here.
__all__ += [
    "Alac", "Alis", "AuxC", "Av1C", "Avc1", "AvcC", "Btrt", "Chan", "ChanMChannelDescriptions", "Chnl", "Clap", "Clli",
    "Co64", "Colr", "Cslg", "Ctts", "DOps", "Dac3", "Data", "Dec3", "Dec3Substreams", "DfLa", "DfLaMetadataBlocks",
    "Dinf", "Dref", "DvcC", "DvvC", "Elng", "Elst", "Emsg", "Enda", "Esds", "Fiel", "Frma", "Ftab", "FtabFontEntry",
    "Ftyp", "Gmin", "Hdlr", "Hev1", "Hmhd", "HvcC", "HvcCArrays", "Iloc", "Imir", "Infe", "Iods", "Ipma", "IpmaEntries",
    "IpmaEntriesAssociations", "Irot", "Ispe", "Keys", "KeysEntries", "Kind", "Leva", "Mdcv", "Mdhd", "Mean", "Mehd",
    "Mfhd", "Mfro", "Mp4a", "Mvhd", "Name", "Nmhd", "Pasp", "Pitm", "Pixi", "Prft", "Pssh", "Saio", "Saiz", "Sbgp",
    "SbgpEntries", "Schm", "Sdtp", "SdtpEntries", "Senc", "Sgpd", "SgpdEntries", "Sidx", "SidxReferences", "Smhd",
    "Srat", "Ssix", "SsixSubsegments", "SsixSubsegmentsRanges", "Stco", "Sthd", "Stpp", "Stsc", "Stsd", "Stss", "Stsz",
    "Stts", "Styp", "Stz2", "Subs", "SubsEntries", "SubsEntriesSubsamples", "Tcmi", "Tenc", "Text", "Tfdt", "Tfhd",
    "Tfra", "TfraEntries", "Tkhd", "Tref", "TrefReferences", "Trex", "Trun", "Tx3g", "Url", "Urn", "Vmhd", "Vp09",
    "VpcC", "VvcC", "Wvtt",
]
