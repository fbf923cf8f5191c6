"""The chosen cases: both sides of each limit, grouped by document 01's refusal numbers, then reads and bytes.

Each call gives a case's name, its lines joined by semicolons, and the beginnings of lines that the original's answer is
expected to have (`accepted` if none is given). The names begin with the refusal (r04-, r3233-), with order- (the order
of the checks), rd- and dense- (reads and queries), b- (bytes) or fig- (document 01's figures).
"""

from cases import to_hex

ACCEPTED = "accepted"

EDITED = "edited_master 1;playtime 75;range 0 75;track 0 75;"
ONE_FRAME = "kind dst;lengths 1;"
TWO_FRAMES = "kind dst;playtime 2;range 0 2;lengths 3,4;"
THREE_CHANNELS = "channels 3;"
TEXTS_ON = "info 1;artist_title on;"
COMMENT = "comment 0 0 0 0 0 0 0 41 "
EMPTY_COMMENT = "comment 0 0 0 0 0 0 0 . "

# Where a text can be: the line that gives it, and what has it written; a comment always is.
TRACK_TEXTS_ON = TEXTS_ON + "artist_title_source track;track 0 1;source_track 1"
TEXT_PLACES = {
    "track-title": ("track 0 1 {}", "info 1;marker_text title"),
    "album": ("tag album {}", TEXTS_ON),
    "album-artist": ("tag album_artist {}", TEXTS_ON),
    "title": ("tag title {}", TRACK_TEXTS_ON),
    "performer": ("tag performer {}", TRACK_TEXTS_ON),
    "comment": ("comment 0 0 0 0 0 0 0 {}", ""),
    "emid": ("emid {}", "info 1"),
    "marker-text": ("marker 0 4 0 {}", "info 1"),
}


def refused(number, detail=0):
    return f"refused {number} {detail} "


def accepted_if(fine, number):
    return ACCEPTED if fine else refused(number)


def hexed(text):
    return to_hex(text.encode())


def times(line, count):
    return ";".join([line] * count)


def tracks_in_a_row(count):
    return ";".join(f"track {75 * place} 75" for place in range(count))


# Refusals 1 to 12: amounts, names, the area, lengths and range

def long_texts(add):
    """Both sides of the limit, and of 65,535 (document 01's), of a text in each place, written and not."""
    for place, (given, written) in TEXT_PLACES.items():
        for length in (65535, 65536, 1048576, 1048577):
            text = given.format(f"41*{length}")
            add(f"r01-{place}-{length}", text, "accepted 9552" if written else ACCEPTED)
            if written:
                add(f"r01-{place}-{length}-written", f"{text};{written}")
    for length in (65536, 1048576, 1048577):
        add(f"r01-emid-{length}-off", f"emid 41*{length};emid_written 0", "accepted 9552")
        add(f"r01-comment-{length}-d2", f"departures d2;comment 0 0 0 0 0 0 0 c3bf*{length}")
        add(f"r01-comment-{length}-of-4-bytes", f"comment 0 0 0 0 0 0 0 f09d849e*{length}")
        add(f"r01-comment-{length}-vanishing", f"replacement none;comment 0 0 0 0 0 0 0 c3a9*{length}", "accepted 9552")
    add("r01-comments-1048576", times("comment 0 0 0 0 0 0 0 41*1048576", 4))
    add("r01-comments-last-1048577", "comment 0 0 0 0 0 0 0 41 3;comment 0 0 0 0 0 0 0 41*1048577")


def refusal_1(add):
    long_texts(add)
    add("r01-tracks-255", times("track 0 1", 255), "accepted 9552")
    add("r01-tracks-256", times("track 0 1", 256), "accepted 9552")
    add("r01-tracks-65535", times("track 0 1", 65535), "accepted 9552")
    add("r01-tracks-65536", times("track 0 1", 65536), "accepted 9552")
    add("r01-edited-tracks-65536", "edited_master 1;" + times("track 0 1", 65536), refused(17))
    add("r01-callers-255", times("caller 41414141 .", 255), f"accepted {9552 + 255 * 12}")
    add("r01-callers-256", times("caller 41414141 .", 256), f"accepted {9552 + 256 * 12}")
    add("r01-markers-65535", "info 1;" + times("marker 0 4 0 .", 65535))
    add("r01-markers-65536", "info 1;" + times("marker 0 4 0 .", 65536))
    add("r01-markers-65536-info-off", times("marker 0 4 0 .", 65536), "accepted 9552")
    add("r01-caller-16777216", "caller 41414141 00*16777216", f"accepted {9552 + 12 + 16777216}")
    add("r01-caller-16777217", "caller 41414141 00*16777217", f"accepted {9552 + 12 + 16777218}")


def refusal_3(add):
    """Only what UTF-8 can say: the neighbours of what is no scalar."""
    add("r03-text-ud7ff", "tag album ed9fbf;info 1;artist_title on")
    add("r03-text-ue000-10ffff", "tag album ee8080+f48fbfbf;info 1;artist_title on")


def refusals_4_and_5(add):
    for place in range(4):
        for byte in ("1f", "7f", "80", "ff"):
            name = "41" * place + byte + "41" * (3 - place)
            add(f"r04-byte-{byte}-at-{place}", f"caller {name} .", refused(4))
    for place in range(3):
        name = "41" * place + "20" + "41" * (3 - place)
        add(f"r04-space-before-nonspace-{place}", f"caller {name} .", refused(4))
    add("r04-leading-spaces", "caller 20202041 .", refused(4))
    add("r04-space-a-space", "caller 41204120 .", refused(4))
    add("r04-four-spaces", "caller 20202020 .", "accepted 9564")
    add("r04-trailing-space", "caller 41414120 .")
    add("r04-trailing-3-spaces", "caller 41202020 .")
    add("r04-limits-21-7e", "caller 217e7e21 .")
    for name in ("FRM8", "FVER", "PROP", "DSD ", "DST ", "DSTI", "COMT", "DIIN", "MANF"):
        add(f"r05-{name.strip()}", f"caller {hexed(name)} .", refused(5))
    free = ("FRTE", "DSTF", "DSTC", "FS  ", "CHNL", "CMPR", "ABSS", "LSCO", "EMID", "MARK", "DIAR", "DITI", "SND ")
    for name in free + ("frm8", "dsd ", "DSD1", "DSTA", "DST1"):
        add(f"r05-free-{name.strip()}", f"caller {hexed(name)} .", "accepted 9564")
    add("r0405-reserved-then-bad", f"caller {hexed('FVER')} .;caller 1f414141 .", refused(5))
    add("r0405-bad-then-reserved", f"caller 1f414141 .;caller {hexed('FVER')} .", refused(4))
    add("r0405-good-bad", "caller 41414141 .;caller 1f414141 .", refused(4))


def refusal_6(add):
    add("r06-playtime-1151999", "playtime 1151999", "accepted 9552")
    add("r06-playtime-1152000", "playtime 1152000", "accepted 9552")
    add("r06-playtime-1166880", "playtime 1166880", "accepted 9552")
    add("r06-playtime-1166881-driver", "playtime 1166881", "panic playtime up to 1166880")
    add("r06-range-to-1166880", "playtime 1166880;range 0 1166880", f"accepted {144 + 9408 * 1166880}")
    add("r06-edited-1152000", "playtime 1152000;range 0 1152000;edited_master 1;track 0 75")
    add("r06-edited-last-ends-1152000", "playtime 1152000;range 0 1152000;edited_master 1;track 0 1152000", refused(20))


def refusal_7(add):
    for channels in (0, 7, 255):
        add(f"r07-dsd-{channels}", f"channels {channels}", refused(7))
        add(f"r07-dst-{channels}", f"kind dst;lengths 1;channels {channels}", refused(7))
    for channels in range(1, 7):
        add(f"r07-dsd-{channels}", f"channels {channels};config 1")
        add(f"r07-dst-{channels}", f"kind dst;lengths 1;channels {channels};config 1")
    add("r07-before-09-10", "kind dst;channels 7;lengths 0,0", refused(7))
    add("r07-before-11-dsd", "channels 7;range 1 0", refused(7))
    add("r07-before-12-dsd", "channels 7;range 0 0", refused(7))


def refusal_8(add):
    add("r08-stereo", "")
    add("r08-threetwo", "channels 5;config 3")
    add("r08-fivepointone", "channels 6;config 4")
    add("r08-stereo-of-3-channels", "channels 3", "accepted 14246")
    add("r08-stereo-of-1-channel", "channels 1")
    add("r08-threetwo-of-2", "channels 2;config 3")
    add("r08-fivepointone-of-5", "channels 5;config 4")
    add("r08-config-8-is-stereo", "config 8")
    add("r08-unspecified-2", "config 1")


def refusals_9_and_10(add):
    add("r09-dst-none-for-1", "kind dst", refused(9))
    add("r09-dst-2-for-1", "kind dst;lengths 1,1", refused(9))
    add("r09-dst-1-for-1", "kind dst;lengths 1")
    add("r09-dst-reversed", "kind dst;range 1 0", refused(9))
    add("r09-dsd-reversed-is-11", "range 1 0", refused(11))
    add("r09-dsd-lengths-ignored-driver", "lengths 1")
    add("r09-before-10", "kind dst;lengths 0,0", refused(9))
    add("r09-before-11", "kind dst;range 0 2", refused(9))
    add("r09-reversed-before-10", "kind dst;range 1 0;lengths 0", refused(9))
    add("r09-dst-empty-range-1-length", "kind dst;range 0 0;lengths 1", refused(9))
    add("r09-dst-1151999", "kind dst;playtime 1151999;range 0 1151999;lengths 1x1151999;dst_index 0")
    add("r10-0", "kind dst;lengths 0", refused(10))
    add("r10-1", "kind dst;lengths 1")
    add("r10-65536", "kind dst;lengths 65536")
    add("r10-65537", "kind dst;lengths 65537", refused(10))
    add("r10-second", "kind dst;playtime 2;range 0 2;lengths 1,0", refused(10))
    add("r10-4294967295", "kind dst;lengths 4294967295", refused(10))
    add("r10-before-11", "kind dst;range 0 2;lengths 0,0", refused(10))
    add("r10-plain-longer-ok", "kind dst;channels 6;config 4;lengths 28225")


def refusals_11_and_12(add):
    add("r11-end-over-playtime", "range 0 2", refused(11))
    add("r11-dst-end-over-playtime", "kind dst;range 0 2;lengths 1,1", refused(11))
    add("r11-reversed-past", "playtime 1;range 5 3", refused(11))
    add("r11-empty-past-playtime", "range 2 2", refused(11))
    add("r11-dst-empty-past-playtime", "kind dst;range 2 2", refused(11))
    add("r11-before-13", "range 0 2;source_track 1", refused(11))
    add("r12-empty", "range 0 0", refused(12))
    add("r12-empty-at-end", "range 1 1", refused(12))
    add("r12-dst-empty", "kind dst;range 0 0", refused(12))
    add("r12-playtime-0", "playtime 0;range 0 0", refused(12))
    add("r12-before-13", "range 0 0;source_track 1", refused(12))
    add("r12-before-15", "range 0 0;playtime 1;edited_master 1", refused(12))


# Refusals 13 to 23: the source track, the edited master

def refusals_13_and_14(add):
    add("r13-no-tracks", "source_track 1", refused(13))
    add("r13-2-of-1", "track 0 1;source_track 2", refused(13))
    add("r13-zero", "track 0 1;source_track 0", refused(13))
    add("r13-zero-no-tracks", "source_track 0", refused(13))
    add("r13-1-of-1", "track 0 1;source_track 1")
    add("r13-255-of-255", times("track 0 1", 255) + ";source_track 255")
    add("r13-255-of-254", times("track 0 1", 254) + ";source_track 255", refused(13))
    add("r13-255-of-65535", times("track 0 1", 65535) + ";source_track 255")
    add("r13-not-for-edited", "edited_master 1;playtime 75;range 0 75;track 0 75;source_track 9")
    add("r13-zero-is-not-none", "source_track 0", refused(13))
    add("r13-none", "source_track none", "accepted 9552")
    add("r14-starts-at-end", "track 1 1;source_track 1", refused(14))
    add("r14-ends-at-first", "playtime 2;range 1 2;track 0 1;source_track 1", refused(14))
    add("r14-overlaps-one", "playtime 3;range 1 2;track 0 2;source_track 1")
    add("r14-zero-duration", "track 0 0;source_track 1", refused(14))
    add("r14-saturating", "playtime 2;range 1 2;track 1 4294967295;source_track 1")
    add("r14-not-for-edited", "edited_master 1;playtime 75;range 0 75;track 0 75;track 75 75;source_track 2")
    add("r14-before-24", "track 1 1;source_track 1;replacement 31", refused(14))


def refusals_15_to_20(add):
    add("r15-ok", EDITED)
    add("r15-end", "edited_master 1;playtime 76;range 0 75;track 0 75", refused(15))
    add("r15-first", "edited_master 1;playtime 76;range 1 76;track 1 75", refused(15))
    add("r15-smallest", "edited_master 1;playtime 2", refused(15))
    add("r16-3-channels", "edited_master 1;channels 3", refused(16))
    add("r16-2-config-1", "edited_master 1;config 1", refused(16))
    add("r16-five", EDITED + "channels 5;config 3")
    add("r16-six", EDITED + "channels 6;config 4")
    add("r17-none", "edited_master 1", refused(17))
    add("r17-255", "edited_master 1;playtime 19125;range 0 19125;" + tracks_in_a_row(255))
    add("r17-256", "edited_master 1;playtime 19200;range 0 19200;" + tracks_in_a_row(256), refused(17))
    add("r17-256-smallest", "edited_master 1;" + times("track 0 1", 256), refused(17))
    add("r17-65535", "edited_master 1;" + times("track 0 1", 65535), refused(17))
    add("r17-256-not-edited", tracks_in_a_row(256))
    add("r17-before-18", "edited_master 1;" + tracks_in_a_row(255) + ";track 19125 74", refused(17))
    add("r17-before-19", "edited_master 1;" + tracks_in_a_row(255) + ";track 19124 75", refused(17))
    add("r17-before-20", "edited_master 1;" + tracks_in_a_row(255) + ";track 19125 1152000", refused(17))
    add("r18-74", "edited_master 1;track 0 74", refused(18, 1))
    add("r18-second", "edited_master 1;track 0 75;track 75 74", refused(18, 2))
    add("r18-two", "edited_master 1;track 0 75;track 75 0;track 80 1", refused(18, 2))
    add("r18-75-past-playtime", "edited_master 1;track 0 75")
    add("r18-255th", "edited_master 1;" + tracks_in_a_row(254) + ";track 19050 74", refused(18, 255))
    add("r19-255th", "edited_master 1;" + tracks_in_a_row(254) + ";track 19049 75", refused(19))
    add("r19-order", "edited_master 1;track 75 75;track 0 75", refused(19))
    add("r19-overlap-1", "edited_master 1;track 0 76;track 75 75", refused(19))
    add("r19-touching", "edited_master 1;track 0 75;track 75 75")
    add("r19-gap", "edited_master 1;playtime 200;range 0 200;track 0 75;track 76 75")
    add("r19-empty-by-saturation", "edited_master 1;track 4294967295 75", refused(19))
    add("r19-one-frame-by-saturation", "edited_master 1;track 4294967294 75", refused(20))
    add("r19-same-track-twice", "edited_master 1;track 0 75;track 0 75", refused(19))
    add("r20-255th", "edited_master 1;" + tracks_in_a_row(254) + ";track 19050 1152000", refused(20))
    add("r20-1151999", "edited_master 1;track 0 1151999")
    add("r20-1152000", "edited_master 1;track 0 1152000", refused(20))
    add("r20-last-only-not-first", "edited_master 1;track 0 75;track 1151925 75", refused(20))
    add("r20-last-at-limit", "edited_master 1;track 0 75;track 1151924 75")
    add("r20-tracks-outside-range-accepted", "edited_master 1;track 500 75")


def refusals_21_to_23(add):
    add("r21-one", EDITED + "marker 0 4 0 .", refused(21))
    add("r21-empty-list", EDITED + "markers custom", refused(21))
    add("r21-smallest", "edited_master 1;track 0 75;markers custom", refused(21))
    add("r21-smallest-toc", "edited_master 1;track 0 75")
    add("r22-off", EDITED + "lsco 0", refused(22))
    add("r22-unspecified-switch-no-matter", EDITED + "unspecified_lsco 1")
    add("r22-not-edited-lsco-0", "lsco 0")
    add("r23-off", EDITED + "emid_written 0", refused(23))
    add("r23-empty-emid-ok", EDITED + "emid .")


# Refusals 24 to 39: texts, channel numbers, PROP, DIIN, COMT, local order

def refusal_24(add):
    for byte, fine in ((31, False), (32, True), (126, True), (127, False), (0, False), (255, False), (160, False)):
        add(f"r24-{byte}", f"replacement {byte}", accepted_if(fine, 24))
    add("r24-none", "replacement none")
    add("r24-d2", "replacement 31;departures d2", refused(24))
    add("r24-d2-a0", "replacement 160;departures d2", refused(24))
    add("r24-dst", "kind dst;lengths 1;replacement 31", refused(24))
    add("r24-edited", EDITED + "replacement 31", refused(24))


def refusals_25_to_27(add):
    add("r25-2-of-3", THREE_CHANNELS + "channel_numbers 0,1", refused(25))
    add("r25-4-of-3", THREE_CHANNELS + "channel_numbers 0,1,2,3", refused(25))
    add("r25-3-of-3", THREE_CHANNELS + "channel_numbers 2,1,0")
    add("r25-empty-list", THREE_CHANNELS + "channel_numbers -", refused(25))
    add("r25-stereo-not-looked-at", "channel_numbers 1000,1000,1000", "accepted 9552")
    add("r25-before-26", THREE_CHANNELS + "channel_numbers 1000,1000", refused(25))
    add("r25-seven", "channels 3;channel_numbers 0,1,2,3,4,5,6", refused(25))
    add("r26-1000", THREE_CHANNELS + "channel_numbers 0,1,1000", refused(26))
    add("r26-999", THREE_CHANNELS + "channel_numbers 0,1,999")
    add("r26-65535", THREE_CHANNELS + "channel_numbers 65535,0,1", refused(26))
    add("r2627-5-5-1000", THREE_CHANNELS + "channel_numbers 5,5,1000", refused(27))
    add("r2627-1000-5-5", THREE_CHANNELS + "channel_numbers 1000,5,5", refused(26))
    add("r2627-5-1000-5", THREE_CHANNELS + "channel_numbers 5,1000,5", refused(26))
    add("r2627-1000-1000", THREE_CHANNELS + "channel_numbers 1000,1000,1", refused(26))
    add("r27-5-5", THREE_CHANNELS + "channel_numbers 5,5,1", refused(27))
    add("r27-first-last", THREE_CHANNELS + "channel_numbers 5,1,5", refused(27))


def refusals_28_and_29(add):
    add("r28-twice", "property_order fs,fs,chnl,cmpr,lsco", refused(28))
    add("r28-twice-abss-missing-unused", "property_order fs,chnl,cmpr,lsco,lsco", refused(28))
    add("r28-all-same", "property_order fs,fs,fs,fs,fs", refused(28))
    add("r28-reversed", "property_order lsco,abss,cmpr,chnl,fs")
    add("r28-before-29", "property_order fs,fs,chnl,cmpr,lsco;absolute_start 6479999", refused(28))
    add("r29-6479998", "absolute_start 6479998")
    add("r29-6479999", "absolute_start 6479999", refused(29))
    add("r29-u32max", "absolute_start 4294967295", refused(29))
    add("r29-2-positions", "absolute_start 6479998;playtime 2;range 0 2", refused(29))
    add("r29-range-not-end", "absolute_start 6479998;playtime 2;range 1 2")
    add("r29-edited", EDITED + "absolute_start 6479925", refused(29))
    add("r29-edited-ok", EDITED + "absolute_start 6479924")
    add("r29-marker-at-6479999", "info 1;emid_written 0;absolute_start 6479998;marker 1 4 0 .")
    add("r29-no-start-longest", "playtime 1151999;range 0 1151999")


def refusals_30_and_31(add):
    add("r30-twice", "info 1;info_order emid,emid,diar,diti", refused(30))
    add("r30-info-off", "info_order emid,emid,diar,diti")
    add("r30-edited-info-0", EDITED + "info 0;info_order emid,emid,diar,diti", refused(30))
    add("r30-reversed", "info 1;info_order diti,diar,mark,emid")
    add("r30-before-31", "info 1;emid 1f;info_order emid,emid,diar,diti", refused(30))
    for byte in ("1f", "20", "7e", "7f", "80", "a0", "ff", "00"):
        fine = byte in ("20", "7e")
        add(f"r31-{byte}", f"info 1;emid {byte}", accepted_if(fine, 31))
        add(f"r31-d2-{byte}", f"info 1;departures d2;emid {byte}", accepted_if(fine, 31))
    add("r31-emid-not-written", "info 1;emid_written 0;emid 1f")
    add("r31-info-off", "emid 1f")
    add("r31-second-byte", "info 1;emid 411f", refused(31))
    add("r31-edited", EDITED + "emid 1f", refused(31))
    add("r31-before-32", "info 1;emid 1f;marker 2 4 0 .", refused(31))
    add("r31-mark-first-in-order", "info 1;emid 1f;marker 2 4 0 .;info_order mark,emid,diar,diti", refused(31))


def refusals_32_and_33(add):
    add("r32-at-end", "info 1;marker 1 4 0 .")
    add("r32-after-end", "info 1;marker 2 4 0 .", refused(32))
    add("r32-before-first", "info 1;playtime 2;range 1 2;marker 0 4 0 .", refused(32))
    add("r32-at-first", "info 1;playtime 2;range 1 2;marker 1 4 0 .")
    add("r32-u32max", "info 1;marker 4294967295 4 0 .", refused(32))
    add("r32-info-off", "marker 2 4 0 .")
    add("r32-end-before-playtime", "info 1;playtime 3;range 0 1;marker 2 4 0 .", refused(32))
    add("r32-with-source-track", "info 1;track 0 1;source_track 1;marker 2 4 0 .", refused(32))
    for byte in ("1f", "20", "7e", "7f", "80", "9f", "a0", "ff", "00"):
        plain = byte in ("20", "7e")
        d2 = plain or byte in ("a0", "ff")
        add(f"r33-{byte}", f"info 1;marker 0 4 0 {byte}", accepted_if(plain, 33))
        add(f"r33-d2-{byte}", f"info 1;departures d2;marker 0 4 0 {byte}", accepted_if(d2, 33))
    add("r33-d1-a0", "info 1;departures d1;marker 0 4 0 a0", refused(33))
    add("r33-info-off", "marker 0 4 0 1f")
    add("r33-title-with-control-replaced", "info 1;track 0 1 1f;marker_text title")
    add("r33-before-34", "info 1;marker 0 4 0 1f;comment 0 13 0 0 0 0 0 41", refused(33))
    add("r3233-same-marker", "info 1;marker 2 4 0 1f", refused(32))
    add("r3233-text-then-place", "info 1;marker 0 4 0 1f;marker 2 4 0 .", refused(33))
    add("r3233-place-then-text", "info 1;marker 2 4 0 .;marker 0 4 0 1f", refused(32))
    add("r3233-mark-last-in-order", "info 1;marker 2 4 0 .;info_order diti,diar,emid,mark", refused(32))


def refusals_34_and_35(add):
    for place, name, limit in ((1, "month", 12), (2, "day", 31), (3, "hour", 23), (4, "minutes", 59)):
        for value in (limit, limit + 1, 255):
            date = ["0"] * 5
            date[place] = str(value)
            add(f"r34-{name}-{value}", f"comment {' '.join(date)} 0 0 41", accepted_if(value == limit, 34))
    add("r34-year-65535", "comment 65535 0 0 0 0 0 0 41")
    add("r34-empty-left-out", "comment 0 13 0 0 0 0 0 .", refused(34))
    add("r34-empty-by-d2", "departures d2;comment 0 13 0 0 0 0 0 7f", refused(34))
    for kind, limit in ((1, 2), (2, 2), (3, 4)):
        for reference in (limit, limit + 1):
            expected = accepted_if(reference == limit, 35)
            add(f"r35-kind{kind}-{reference}", f"comment 0 0 0 0 0 {kind} {reference} 41", expected)
    add("r35-empty-left-out", "comment 0 0 0 0 0 2 3 .", refused(35))
    add("r35-kind1-6ch-6", "channels 6;config 4;comment 0 0 0 0 0 1 6 41")
    add("r35-kind1-6ch-7", "channels 6;config 4;comment 0 0 0 0 0 1 7 41", refused(35))
    add("r35-kind1-65535", "comment 0 0 0 0 0 1 65535 41", refused(35))
    add("r35-kind0-65535-driver", "comment 0 0 0 0 0 0 65535 41")
    add("r3435-same", "comment 0 13 0 0 0 2 3 41", refused(34))
    add("r3435-ref-then-month", "comment 0 0 0 0 0 2 3 41;comment 0 13 0 0 0 0 0 41", refused(35))
    add("r3435-month-then-ref", "comment 0 13 0 0 0 0 0 41;comment 0 0 0 0 0 2 3 41", refused(34))


def refusal_36(add):
    add("r36-65535", COMMENT + "65535")
    add("r36-65536", COMMENT + "65536", refused(36))
    add("r36-65535-and-empty", COMMENT + "65535;" + EMPTY_COMMENT + "3")
    add("r36-65536-empties", EMPTY_COMMENT + "65536", "accepted 9552")
    add("r36-65536-empties-written", EMPTY_COMMENT + "65536;empty_text 1", refused(36))
    add("r36-65535-then-month", COMMENT + "65535;comment 0 13 0 0 0 0 0 41", refused(34))
    add("r36-65535-then-ref", COMMENT + "65535;comment 0 0 0 0 0 2 3 41", refused(35))
    add("r36-then-month", COMMENT + "65536;comment 0 13 0 0 0 0 0 41", refused(36))
    add(
        "r36-empties-between",
        EMPTY_COMMENT + "5;" + COMMENT + "65535;" + EMPTY_COMMENT + "5;" + COMMENT + "1",
        refused(36),
    )
    add("r36-65535-then-empty-month", COMMENT + "65535;comment 0 13 0 0 0 0 0 .", refused(34))
    add("r36-vanishing-not-counted", "replacement none;comment 0 0 0 0 0 0 0 c3a9 65536", "accepted 9552")


def refusals_37_to_39(add):
    add("r37-twice", "local_order prop,prop,sound", refused(37))
    add("r37-six", "local_order prop,comt,diin,sound,dsti,prop", refused(37))
    add("r37-unneeded-twice", "local_order prop,sound,dsti,dsti", refused(37))
    add("r37-before-38", "local_order prop,prop", refused(37))
    add("r37-before-39", "local_order sound,prop,sound", refused(37))
    add("r37-comment-first", "local_order prop,prop;comment 0 13 0 0 0 0 0 41", refused(34))
    add("r38-none", "local_order -", refused(38))
    add("r38-no-prop", "local_order sound", refused(38))
    add("r38-no-sound", "local_order prop", refused(38))
    add("r38-minimal-dsd", "local_order prop,sound", "accepted 9552")
    add("r38-dst-no-dsti", "kind dst;lengths 1;local_order prop,sound", refused(38))
    add("r38-dst-index-off", "kind dst;lengths 1;dst_index 0;local_order prop,sound")
    add("r38-comt", "comment 0 0 0 0 0 0 0 41;local_order prop,sound", refused(38))
    add("r38-comt-empty", "comment 0 0 0 0 0 0 0 .;local_order prop,sound")
    add("r38-diin", "info 1;local_order prop,sound", refused(38))
    add("r38-diin-empty-not-written", "info 1;emid_written 0;empty_info 0;local_order prop,sound")
    add("r38-diin-empty-written", "info 1;emid_written 0;local_order prop,sound", refused(38))
    add("r38-unneeded-names", "local_order dsti,diin,comt,prop,sound", "accepted 9552")
    add("r38-before-39", "info 1;local_order sound,prop", refused(38))
    add("r38-no-prop-before-39", "local_order sound,dsti", refused(38))
    add("r39-sound-prop", "local_order sound,prop", refused(39))
    add("r39-dst", "kind dst;lengths 1;local_order dsti,sound,prop", refused(39))
    add("r39-prop-between", "info 1;local_order diin,prop,sound")


# The order of the checks

def all_faults(kind, edited):
    """The keys of a case with every fault at once, as far as they go together."""
    case = {
        "kind": kind,
        "caller": ["1f414141 .", f"{hexed('FVER')} ."],
        "channels": 7,
        "config": 1,
        "playtime": 2,
        "range": "3 5",
        "replacement": 31,
        "property_order": "fs,fs,chnl,cmpr,lsco",
        "absolute_start": 6479999,
        "info": 1,
        "info_order": "emid,emid,diar,diti",
        "emid": "1f",
        "comment": ["0 13 0 0 0 0 0 41", "0 0 0 0 0 2 3 41", "0 0 0 0 0 0 0 41 65536"],
        "local_order": "sound,prop,prop",
        "lengths": "0,0,0",
    }
    if edited:
        case |= {"edited_master": 1, "lsco": 0, "emid_written": 0, "marker": ["9 4 0 1f"], "source_track": 9}
    else:
        case |= {"source_track": 9, "channel_numbers": "1,1", "marker": ["0 4 0 1f", "9 4 0 ."]}
    return case


def early_steps(kind):
    """Refusals 4 to 12: the number expected, and what puts it right."""
    yield 4, {"caller": [f"{hexed('FVER')} ."]}
    yield 5, {"caller": ["41414141 ."]}
    yield 7, {"channels": 3}
    if kind == "dst":
        yield 9, {"lengths": "0,0"}
        yield 10, {"lengths": "1,2"}
    yield 11, {"range": "1 1", "lengths": "-"}
    yield 12, {"range": "1 2", "lengths": "7"}


def edited_master_steps():
    """Refusals 15 to 23, in the place of 13 and 14."""
    yield 15, {"range": "0 2", "lengths": "7,8"}
    yield 16, {"channels": 2, "config": 0}
    yield 17, {"track": ["0 1152000", "0 74", "0 1152000"]}
    yield 18, {"track": ["0 1152000", "0 1152000"]}
    yield 19, {"track": ["0 1152000"]}
    yield 20, {"track": ["0 75"]}
    yield 21, {"marker": []}
    yield 22, {"lsco": 1}
    yield 23, {"emid_written": 1}


def late_steps(edited):
    """Refusals 24 to 39; an edited master has no unspecified layout and no custom markers."""
    yield 24, {"replacement": 32}
    if not edited:
        yield 25, {"channel_numbers": "1000,1,1"}
        yield 26, {"channel_numbers": "1,1,1000"}
        yield 27, {"channel_numbers": "1,2,3"}
    yield 28, {"property_order": "fs,chnl,cmpr,abss,lsco"}
    yield 29, {"absolute_start": 0}
    yield 30, {"info_order": "emid,mark,diar,diti"}
    if edited:
        yield 31, {"emid": "41"}
    else:
        yield 31, {"emid": "41", "marker": ["9 4 0 1f", "0 4 0 1f"]}
        yield 32, {"marker": ["1 4 0 1f", "9 4 0 ."]}
        yield 33, {"marker": ["1 4 0 ."]}
    yield 34, {"comment": ["0 0 0 0 0 2 3 41", "0 0 0 0 0 0 0 41 65536"]}
    yield 35, {"comment": ["0 0 0 0 0 0 0 41 65536"]}
    yield 36, {"comment": ["0 0 0 0 0 0 0 41"]}
    yield 37, {"local_order": "sound,prop"}
    yield 38, {"local_order": "sound,prop,diin,comt,dsti"}
    yield 39, {"local_order": "diin,prop,sound,comt,dsti"}


def steps(kind, edited):
    yield from early_steps(kind)
    if edited:
        yield from edited_master_steps()
    else:
        yield 13, {"source_track": 1, "track": ["0 1"]}
        yield 14, {"source_track": "none"}
    yield from late_steps(edited)


def body_of(case):
    lines = []
    for key, value in case.items():
        values = value if isinstance(value, list) else [value]
        if key != "lengths" or case["kind"] == "dst":
            lines += [f"{key} {each}" for each in values]
    return ";".join(lines)


def order_of_checks(add):
    """Every fault at once, put right from the lowest number on."""
    for tag, kind, edited in (
        ("dsd", "dsd", False),
        ("dst", "dst", False),
        ("edited-dsd", "dsd", True),
        ("edited-dst", "dst", True),
    ):
        case = all_faults(kind, edited)
        for number, right in steps(kind, edited):
            detail = 2 if number == 18 else 0
            add(f"order-{tag}-{number:02}", body_of(case), refused(number, detail))
            case |= right
        add(f"order-{tag}-none", body_of(case))


# Reads and queries (42, 43)

def reads(add):
    add(
        "r42-none-in-rust-many-positions",
        "playtime 1166880;range 0 1166880;query 0 18446744073709551615;query 10978007183 1;"
        "read 10978007183 2;read 10978007184 1",
    )
    add("rd-whole", TWO_FRAMES + "read 0 226;query 0 226")
    add("rd-part-then-wrong", TWO_FRAMES + "dst 1 0102030405;read 158 32")
    add("rd-wrong-frame-header-only", TWO_FRAMES + "dst 0 01;read 158 12;read 158 13")
    add("rd-wrong-frame-pad-only", TWO_FRAMES + "dst 0 01;read 173 1")
    add("rd-wrong-frame-last-byte", TWO_FRAMES + "dst 0 01;read 172 1")
    add("rd-wrong-second-header-only", TWO_FRAMES + "dst 1 01;read 158 28;read 158 29")
    add(
        "rd-crc-content-not-asked",
        TWO_FRAMES + "dst_crc 1;content 0 00;read 158 16;read 158 17;read 174 12;read 186 4;read 174 1",
    )
    add("rd-crc-wrong-dst-dstc-only", TWO_FRAMES + "dst_crc 1;dst 0 01;read 174 16")
    add("rd-crc-both-wrong", TWO_FRAMES + "dst_crc 1;dst 0 01;content 0 01;read 158 32")
    add("rd-crc-asked-order", TWO_FRAMES + "dst_crc 1;read 0 258")
    add("rd-dsd-wrong-content-last", "playtime 2;range 0 2;content 1 00;read 9550 4;read 9552 1;read 9550 2")
    add("rd-dsd-wrong-content-header-written", "content 0 00;read 140 8;read 140 4")
    add("rd-empty-buffer", TWO_FRAMES + "dst 0 01;dst 1 01;read 158 0;query 158 0;read 170 0")
    add(
        "rd-at-end",
        TWO_FRAMES + "read 226 5;query 226 5;read 225 5;query 225 5;read 227 5;read 18446744073709551615 5;"
        "query 18446744073709551615 5;query 0 18446744073709551615;query 226 18446744073709551615",
    )
    add(
        "rd-no-trailer-at-end",
        "read 9552 5;query 9552 5;query 9551 1;read 18446744073709551615 5;"
        "query 18446744073709551615 18446744073709551615",
    )
    add("rd-trailer-only", TWO_FRAMES + "dst 0 01;dst 1 01;read 190 36;query 190 36")
    add("rd-wrong-then-trailer", TWO_FRAMES + "dst 1 01;read 186 40")
    add(
        "rd-range-not-from-0",
        "kind dst;playtime 9;range 5 7;lengths 3,4;query 0 226;query 174 1;query 0 10;query 226 9;read 158 32",
    )
    add("rd-none-range-not-from-0", "playtime 9;range 5 7;query 0 144;query 144 1;query 9552 1")
    add("rd-longer-buffer", TWO_FRAMES + "read 220 10")
    add("rd-too-long-content", "content 0 00*9409;read 144 1;read 0 144")
    add("rd-too-long-dst", TWO_FRAMES + "dst 0 00*4;read 158 12;read 170 1")
    add("rd-smallest-partly-written", ONE_FRAME + "dst 0 .;read 169 2")
    add("rd-smallest-partly-written-dsd", "content 0 .;read 143 2")
    add("rd-smallest-header-byte-passes", ONE_FRAME + "dst 0 .;read 158 1")
    add("rd-smallest-pad-passes", ONE_FRAME + "dst 0 .;read 171 1")
    add("rd-smallest-data-byte-fails", ONE_FRAME + "dst 0 .;read 170 1")
    add("rd-smallest-crc-content-not-asked", ONE_FRAME + "dst_crc 1;content 0 .;read 158 1;read 170 1;read 171 1")
    add("rd-smallest-dst-not-asked-for-crc", ONE_FRAME + "dst_crc 1;dst 0 .;read 172 1")
    add("rd-dsd-wrong-not-touched", "content 0 .;read 0 144;read 143 1")
    add("rd-wrong-beside-the-read", TWO_FRAMES + "dst 1 .;read 158 16;query 158 16")
    add("rd-empty-first-and-only", "playtime 9;range 5 6;query 0 0;query 144 0;query 9552 0;read 144 0")


def reads_at_every_place(add):
    for tag, options, size, lengths in (
        ("dst", "", 226, (0, 1, 2, 12, 13, 16, 17, 32, 60, 230)),
        ("dst-crc", "dst_crc 1;", 258, (0, 1, 2, 12, 13, 16, 17, 32, 48, 49, 260)),
    ):
        places = [f"{offset} {length}" for offset in range(size + 3) for length in lengths]
        asks = ";".join(f"query {place};read {place}" for place in places)
        add(f"dense-{tag}", TWO_FRAMES + options + asks)
    bases = (0, 120, 124, 126, 128, 130, 4800, 4830, 4832, 4834, 9530, 9536, 9540, 14230, 14240, 14250, 20000)
    offsets = [base + more for base in bases for more in range(6)]
    lengths = (0, 1, 2, 4704, 4705, 9408, 9409, 20000)
    queries = ";".join(f"query {offset} {length}" for offset in offsets for length in lengths)
    add("dense-dsd", "channels 1;config 1;playtime 3;range 0 3;" + queries)


# Bytes: document 01's figures, and points easy to misread

def figures(add):
    add("fig-dsd-defaults", "", "accepted 9552", "header 144 46524d38000000000000254444534420")
    add("fig-dsd-d1", "departures d1", "accepted 9552", "header 144 46524d38000000000000254444534420")
    add(
        "fig-dst-3-4",
        "kind dst;playtime 2;range 0 2;lengths 3,4",
        "accepted 226",
        "header 158 46524d3800000000000000d644534420",
        "sound 32",
        "trailer 36 445354490000000000000018000000000000009e0000000300000000000000ae00000004",
    )
    add(
        "fig-dst-3-4-data",
        "kind dst;playtime 2;range 0 2;lengths 3,4;dst_index_offset data",
        "accepted 226",
        "trailer 36 44535449000000000000001800000000000000aa0000000300000000000000ba00000004",
    )
    add(
        "fig-dst-3-4-crc",
        "kind dst;playtime 2;range 0 2;lengths 3,4;dst_crc 1",
        "accepted 258",
        "trailer 36 445354490000000000000018000000000000009e0000000300000000000000be00000004",
    )
    add("fig-abss-6479998", "absolute_start 6479998")
    add(
        "fig-abss-time",
        "absolute_start 6479998;property_order abss,fs,chnl,cmpr,lsco",
        ACCEPTED,
        "header 164 46524d380000000000002558445344204656455200000000000000040105000050524f50000000000000006c534e4420"
        "41425353000000000000000800173b3b0029eb00",
    )
    add("fig-crc-of-1-at-end", "kind dst;dst_crc 1;lengths 1;content 0 00*9407+01;read 0 400")
    add("fig-crc-of-zeros", "kind dst;dst_crc 1;lengths 1;content 0 00*9408;read 0 400")
    add("fig-tracks-75-75", "playtime 150;range 0 150;info 1;track 0 75;track 75 75")


def artist_and_title(add):
    add(
        "b-title-from-tags-not-track-list",
        TEXTS_ON + f"artist_title_source track;source_track 1;track 0 1 {hexed('LIST')};"
        f"tag title {hexed('TAG')};tag performer {hexed('PERF')}",
    )
    add("b-title-track-list-only", TEXTS_ON + f"artist_title_source track;source_track 1;track 0 1 {hexed('LIST')}")
    add(
        "b-marker-text-from-list-not-tag",
        f"info 1;marker_text title;track 0 1 {hexed('LIST')};tag title {hexed('TAG')}",
    )
    add(
        "b-track-source-no-source-track",
        TEXTS_ON + "artist_title_source track;track 0 1;tag title 54;tag performer 50;tag album 41;tag album_artist 42",
    )
    add(
        "b-track-then-album-no-source-track",
        TEXTS_ON + "artist_title_source track_then_album;track 0 1;tag title 54;tag performer 50;tag album 41;"
        "tag album_artist 42",
    )
    add(
        "b-track-then-album",
        TEXTS_ON + "artist_title_source track_then_album;track 0 1;source_track 1;tag title 54;tag album 41;"
        "tag album_artist 42",
    )
    add(
        "b-album-source-with-source-track",
        TEXTS_ON + "track 0 1;source_track 1;tag title 54;tag album 41;tag album_artist 42",
    )
    add(
        "b-empty-tag-present",
        TEXTS_ON + "artist_title_source track_then_album;track 0 1;source_track 1;tag title .;tag album 41;"
        "empty_text 1;emid_written 0",
    )
    add(
        "b-empty-tag-present-left-out",
        TEXTS_ON + "artist_title_source track_then_album;track 0 1;source_track 1;tag title .;tag album 41;"
        "emid_written 0",
    )
    add(
        "b-vanished-tag-present",
        TEXTS_ON + "artist_title_source track_then_album;track 0 1;source_track 1;tag title 7f;tag album 41;"
        "emid_written 0;replacement none",
    )
    add("b-artist-title-unset", "info 1;emid_written 0;tag album 41")
    add("b-artist-title-edited-unset", EDITED + "tag album 41;tag album_artist 42")
    add("b-artist-title-edited-off", EDITED + "artist_title off;tag album 41")
    add(
        "b-artist-title-edited-track-source",
        EDITED + "artist_title_source track;source_track 1;tag title 54;tag performer 50;tag album 41",
    )


def marks(add):
    add("b-empty-text-mark-written", "info 1;emid_written 0;marker 0 4 0 .")
    add("b-flags-kind0", "info 1;emid_written 0;marker 0 0 65535 .")
    add("b-flags-kind1", "info 1;emid_written 0;marker 0 1 65535 .")
    add("b-flags-kind2-4", "info 1;emid_written 0;marker 0 2 65535 .;marker 0 4 65535 .")
    add("b-edited-defaults", EDITED)
    add("b-edited-source-markers-ignored", EDITED + "source_track 1;source_track_markers 0")
    add("b-absent-start-marks", "info 1;emid_written 0;playtime 10;range 4 8;marker 8 4 0 .")
    add("b-start-marks", "info 1;emid_written 0;playtime 10;range 4 8;absolute_start 100;marker 8 4 0 .")
    add(
        "b-program-source-on",
        "info 1;emid_written 0;playtime 10;range 2 8;track 0 5 41;track 5 9;source_track 1;"
        "source_track_markers 1;marker_text title",
    )
    add(
        "b-program-source-off",
        "info 1;emid_written 0;playtime 10;range 0 10;track 0 10;source_track 1;clipped_program 1",
    )
    add("b-program-256-tracks", "info 1;emid_written 0;playtime 19200;range 0 19200;" + tracks_in_a_row(256))
    add(
        "b-program-65535-tracks",
        "info 1;marker_text title;playtime 131070;range 0 131070;"
        + ";".join(f"track {2 * place} {1 + place % 2} 41*{place % 4}" for place in range(65535)),
    )
    add("b-program-play", "info 1;emid_written 0;playtime 10;range 0 10;track 0 5;track 6 4")
    add("b-program-play-zero-track", "info 1;emid_written 0;playtime 10;range 0 10;track 0 5;track 5 0;track 5 5")
    add(
        "b-program-clip-zero-track",
        "info 1;emid_written 0;playtime 10;range 0 9;track 0 5;track 5 0;track 5 5;clipped_program 1",
    )
    add("b-program-part-clip-off", "info 1;emid_written 0;playtime 10;range 0 9;track 0 10")
    add("b-program-part-clip-on", "info 1;emid_written 0;playtime 10;range 1 9;track 0 5;track 5 9;clipped_program 1")
    add("b-program-unclipped-overlap-play", "info 1;emid_written 0;playtime 10;range 0 10;track 0 20;track 15 9")
    add(
        "b-program-unclipped-overlap-clip",
        "info 1;emid_written 0;playtime 10;range 0 9;track 0 20;track 15 9;clipped_program 1",
    )
    add("b-edited-no-track-in-range", "edited_master 1;track 500 75")
    add(
        "b-marks-in-place-of-order",
        "info 1;artist_title on;tag album 41;tag album_artist 42;emid 43;marker 0 4 0 .;info_order diti,mark,emid,diar",
    )


def pads(add):
    add("b-emid-odd", "info 1;emid 41")
    add("b-emid-odd-pad-counted", "info 1;emid 41;text_pad_counted 1")
    add("b-mark-odd", "info 1;emid_written 0;marker 0 4 0 41")
    add("b-mark-odd-pad-counted", "info 1;emid_written 0;marker 0 4 0 41;text_pad_counted 1")
    add("b-diti-odd", TEXTS_ON + "emid_written 0;tag album 41")
    add("b-diti-odd-pad-counted", TEXTS_ON + "emid_written 0;tag album 41;text_pad_counted 1")
    add("b-diar-odd-pad-counted", TEXTS_ON + "emid_written 0;tag album_artist 41;text_pad_counted 1")
    add("b-comt-odd", "comment 1 2 3 4 5 3 4 41")
    add("b-comt-odd-pad-counted", "comment 1 2 3 4 5 3 4 41;text_pad_counted 1")
    add("b-comt-two-odd", "comment 0 0 0 0 0 0 0 41;comment 0 0 0 0 0 0 0 42")
    add("b-caller-odd", "caller 41414141 01")
    add("b-caller-odd-pad-counted-d1", "caller 41414141 01;text_pad_counted 1;departures d1")


def other_bytes(add):
    add("b-default-local-order", "kind dst;lengths 1;info 1;comment 0 0 0 0 0 0 0 41")
    add("b-defaults-info", "info 1")
    add("b-default-replacement", TEXTS_ON + "tag album 41c3a942")
    add("b-replacement-none", TEXTS_ON + "replacement none;tag album 41c3a942")
    add("b-d2-text", TEXTS_ON + "departures d2;tag album 41c3a942+c29f+c2a0+7f+e282ac")
    add("b-default-unspecified-no-lsco", "channels 3")
    add("b-unspecified-lsco", "channels 3;unspecified_lsco 1")
    add("b-unspecified-lsco-stereo-off", "lsco 0;unspecified_lsco 1")
    add("b-lsco-off-unspecified", "channels 3;lsco 0;unspecified_lsco 1")
    add("b-empty-info-default", "info 1;emid_written 0")
    add("b-empty-info-off", "info 1;emid_written 0;empty_info 0")
    add("b-kind0-reference-written-0", "comment 0 0 0 0 0 0 9 41")
    add("b-d1-dst", "kind dst;lengths 1;departures d1")
    add("b-dst", "kind dst;lengths 1")
    add("b-dsti-before-sound", "kind dst;lengths 3;local_order prop,dsti,sound")
    add("b-dsti-first", "kind dst;lengths 3;local_order dsti,prop,sound")
    add(
        "b-prop-after-sound-others",
        "kind dst;lengths 3;info 1;comment 0 0 0 0 0 0 0 41;local_order prop,sound,diin,dsti,comt;caller 41414141 0102",
    )
    add(
        "b-index-over-4-gib",
        "kind dst;playtime 65600;range 0 65600;lengths 65536x65600;query 4295000000 1;query 4299948000 70000;"
        "query 0 9000000000",
    )


GROUPS = (
    refusal_1,
    refusal_3,
    refusals_4_and_5,
    refusal_6,
    refusal_7,
    refusal_8,
    refusals_9_and_10,
    refusals_11_and_12,
    refusals_13_and_14,
    refusals_15_to_20,
    refusals_21_to_23,
    refusal_24,
    refusals_25_to_27,
    refusals_28_and_29,
    refusals_30_and_31,
    refusals_32_and_33,
    refusals_34_and_35,
    refusal_36,
    refusals_37_to_39,
    order_of_checks,
    reads,
    reads_at_every_place,
    figures,
    artist_and_title,
    marks,
    pads,
    other_bytes,
)


def chosen_cases():
    """{name: (lines, expected beginnings of answer lines)}"""
    chosen = {}

    def add(name, body, *expected):
        if name in chosen:
            raise ValueError(f"two cases have the name {name}")
        chosen[name] = ([line for line in body.split(";") if line], expected or (ACCEPTED,))

    for group in GROUPS:
        group(add)
    return chosen
