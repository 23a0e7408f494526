"""Which boxes hold boxes, and the number of bytes in their content before the first one. The readers of the tests share
it, and test_containers.py compares it with tests/containers.txt."""

ALONE = (b"moov trak trgr edts mdia minf dinf stbl mvex moof traf mfra udta meco sinf schi paen strk strd rinf hnti"
         b" hinf ludt iprp ipco grpl gmhd tapt clip matt rmra rmda cmov wave ilst").split()
# The numbers of bytes of version and flags, and in most of these boxes of a number after them. An `iinf` has a count of
# 2 bytes in version 0, and otherwise one of 4.
NUMBERED = {b"iref": 4, b"ipro": 6, b"fiin": 6, b"iinf": 6, b"stsd": 8, b"dref": 8, b"trep": 8}
VIDEO = (b"avc1 avc2 avc3 avc4 svc1 svc2 mvc1 mvc2 mvc3 mvc4 hvc1 hev1 hvc2 hev2 lhv1 lhe1 vvc1 vvi1 evc1 mp4v encv"
         b" resv av01 vp08 vp09").split()
SOUND = b"mp4a enca Opus fLaC alac ac-3 ec-3".split()
OTHERS = {b"tx3g": 38, b"wvtt": 8, b"mp4s": 8, b"urim": 8}
# Codes by which a tree takes a box for an entry or an item: entries of video (QuickTime's, those of 3GPP TS 26.244, and
# of Dolby Vision), entries of sound (QuickTime's, those of 3GPP and 3GPP2, of DTS, MLP, AC-4, MPEG-H and ISO/IEC
# 23003-5), and items of iTunes.
MORE_VIDEO = (
    b"cvid,jpeg,mjpa,mjpb,mjp2,png ,tiff,gif ,rle ,rpza,smc ,raw ,SVQ1,SVQ3,h263,s263,dvc ,dvcp,dvpp,dv5n,"
    b"dv5p,dvh2,dvh3,dvh5,dvh6,dvhp,dvhq,apch,apcn,apcs,apco,ap4h,ap4x,2vuy,yuv2,yuvs,v210,v216,v308,v408,"
    b"v410,Hap1,Hap5,HapY,HapM,CFHD,AVdn,AVdh,drac,vc-1,mp1v,mp2v,m2v1,dvh1,dvhe,dva1,dvav"
).split(b",")
MORE_SOUND = (
    b"twos,sowt,in24,in32,fl32,fl64,lpcm,alaw,ulaw,ima4,MAC3,MAC6,.mp3,QDM2,QDMC,Qclp,agsm,NONE,dvca,samr,"
    b"sawb,sawp,sevc,sqcp,ssmv,dtsc,dtse,dtsh,dtsl,mlpa,ac-4,mha1,mha2,mhm1,mhm2,ipcm,fpcm"
).split(b",") + [b"ms\0" + bytes([number]) for number in (2, 17, 85)]
ITEMS = (
    b"aART,akID,apID,atID,catg,cmID,cnID,covr,cpil,cprt,desc,disk,egid,geID,gnre,hdvd,keyw,ldes,ownr,pcst,"
    b"pgap,plID,purd,purl,rate,rtng,sfID,shwm,soaa,soal,soar,soco,sonm,sosn,stik,tmpo,trkn,tven,tves,tvnn,"
    b"tvsh,tvsn,xid ,----"
).split(b",")
VIDEO_ENTRY, TEXT_ENTRY = 78, 38
# The fields of a sound entry, and those of QuickTime's versions 1 and 2.
SOUND_ENTRY, QUICKTIME_SOUNDS = 28, {1: 44, 2: 64}


def entry(name, content, handler, stsd_version):
    """Returns the bytes before the first box in a sample entry, or None if it is not known to hold boxes."""
    if handler in (b"vide", b"pict", b"auxv") or handler != b"soun" and name in VIDEO:
        return VIDEO_ENTRY
    if handler == b"soun" or name in SOUND:
        version = int.from_bytes(content[8:10], "big") if len(content) >= 10 and stsd_version == 0 else 0
        return QUICKTIME_SOUNDS.get(version, SOUND_ENTRY)
    return OTHERS.get(name)


def bytes_before(name, content, parent=None, handler=None, stsd_version=0):
    """Returns the bytes before the first box in `content`, or None if the box is not known to hold boxes. `name` and
    `parent` are the codes of the box and of the box around it, `handler` that of the media, and `stsd_version` is the
    version of the `stsd` around the box."""
    if parent == b"stsd":
        return entry(name, content, handler, stsd_version)
    if parent == b"ilst" or parent == b"gmhd" and name == b"tmcd" or name in ALONE:
        return 0
    if name == b"meta":
        return 4 if content[:4] == bytes(4) else 0
    if name == b"iinf" and content[:1] > b"\0":
        return 8
    return NUMBERED.get(name)


def is_item(name):
    """Returns whether a tree takes a box for an item in an `ilst`: its code is the number of a key, begins with a
    copyright sign, or is one of iTunes."""
    return b"\0\0\0\0" < name < b"\0\1\0\0" or name[:1] == b"\xa9" or name in ITEMS


def bytes_before_in_tree(name, content):
    """Returns the same as `bytes_before` for a box of which nothing is known except the box. Its code decides that it
    is a sample entry, in an `stsd` of version 0, an item in an `ilst`, or a `tmcd` in a `gmhd`."""
    if name in VIDEO or name in MORE_VIDEO:
        return bytes_before(name, content, b"stsd", b"vide")
    if name in SOUND or name in MORE_SOUND:
        return bytes_before(name, content, b"stsd", b"soun")
    if name in OTHERS:
        return bytes_before(name, content, b"stsd")
    parent = b"ilst" if is_item(name) else b"gmhd" if name == b"tmcd" else None
    return bytes_before(name, content, parent)
