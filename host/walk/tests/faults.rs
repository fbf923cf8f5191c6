//! Each fault of 49, 50 and 51 in a small file, with its place; and what a right file tells.
use walk::{Name, Rule, SoundKind, Time, Walk, walk};

fn chunk(name: &[u8; 4], data: &[u8]) -> Vec<u8> {
    let mut bytes = [name.as_slice(), &(data.len() as u64).to_be_bytes(), data].concat();
    if data.len() % 2 == 1 {
        bytes.push(0);
    }
    bytes
}

fn form(parts: &[Vec<u8>]) -> Vec<u8> {
    chunk(b"FRM8", &[b"DSD ".to_vec(), parts.concat()].concat())
}

fn version() -> Vec<u8> {
    chunk(b"FVER", &[1, 5, 0, 0])
}

fn rate() -> Vec<u8> {
    chunk(b"FS  ", &2_822_400u32.to_be_bytes())
}

fn channels() -> Vec<u8> {
    chunk(b"CHNL", b"\0\x02SLFTSRGT")
}

fn compression(kind: &str) -> Vec<u8> {
    chunk(b"CMPR", format!("{kind}\x04name").as_bytes())
}

fn property(parts: &[Vec<u8>]) -> Vec<u8> {
    chunk(b"PROP", &[b"SND ".to_vec(), parts.concat()].concat())
}

fn plain_property() -> Vec<u8> {
    property(&[rate(), channels(), compression("DSD ")])
}

fn coded_property() -> Vec<u8> {
    property(&[rate(), channels(), compression("DST ")])
}

fn sound() -> Vec<u8> {
    chunk(b"DSD ", &[0x69; 9408])
}

fn frame_rate(frames: u32, rate: u16) -> Vec<u8> {
    chunk(b"FRTE", &[frames.to_be_bytes().as_slice(), &rate.to_be_bytes()].concat())
}

fn coded_sound() -> Vec<u8> {
    let parts = [frame_rate(2, 75), chunk(b"DSTF", &[1; 3]), chunk(b"DSTC", &[1, 2, 3, 4]), chunk(b"DSTF", &[2; 4])];
    chunk(b"DST ", &parts.concat())
}

fn marker(count: u32, text: &[u8]) -> Vec<u8> {
    let mut data = vec![0, 1, 2, 3, 0, 0, 0x93, 0, 0xFF, 0xFF, 0xFF, 0xFE, 0, 4, 0, 2, 0, 8];
    data.extend(count.to_be_bytes());
    data.extend(text);
    chunk(b"MARK", &data)
}

fn text(name: &[u8; 4], count: u32, text: &[u8]) -> Vec<u8> {
    chunk(name, &[&count.to_be_bytes(), text].concat())
}

fn comment(count: u32, text: &[u8]) -> Vec<u8> {
    let mut data = vec![0x07, 0xD0, 12, 31, 23, 59, 0, 3, 0, 2];
    data.extend(count.to_be_bytes());
    data.extend(text);
    data
}

fn of(bytes: &[u8]) -> Walk {
    walk(bytes).expect("bytes in memory can be read")
}

/// The first fault, of a file that must have one.
fn first(bytes: &[u8]) -> (Option<u32>, u64, String) {
    let walked = of(bytes);
    let fault = walked.faults.first().expect("a fault");
    assert!(walked.faults.is_sorted_by_key(|fault| (fault.rule, fault.place)));
    (fault.rule.number(), fault.place, fault.to_string())
}

#[track_caller]
fn at_fault(bytes: &[u8], number: u32, place: u64, words: &str) {
    let (found, at, said) = first(bytes);
    assert_eq!((found, at), (Some(number), place), "{said}");
    assert!(said.contains(words), "{said}");
}

#[track_caller]
fn in_info(part: Vec<u8>, words: &str) {
    let parts = [version(), plain_property(), sound(), chunk(b"DIIN", &part)];
    let place = 16 + parts[0].len() + parts[1].len() + parts[2].len() + 12;
    at_fault(&form(&parts), 51, place as u64, words);
}

#[track_caller]
fn in_property(parts: &[Vec<u8>], which: usize, words: &str) {
    let place = 16 + version().len() + 16 + parts[..which].iter().map(Vec::len).sum::<usize>();
    at_fault(&form(&[version(), property(parts), sound()]), 51, place as u64, words);
}

#[test]
fn a_right_file_of_plain_sound() {
    let start = chunk(b"ABSS", &[0, 1, 2, 3, 0, 0, 0x93, 1]);
    let parts = [rate(), channels(), compression("DSD "), start, chunk(b"LSCO", &[0, 0])];
    let comments = [vec![0, 2], comment(3, b"odd\0"), comment(0, b"")].concat();
    let info = [chunk(b"EMID", b"id."), marker(3, b"odd\0"), marker(3, b"odd"), text(b"DIAR", 2, b"ab")].concat();
    let unknown = chunk(b"ABCD", &[9; 5]);
    let tail = [chunk(b"DSD ", &[0x69; 9408 + 4]), chunk(b"DIIN", &info), chunk(b"COMT", &comments), unknown];
    let bytes = form(&[version(), property(&parts), tail.concat()]);
    let walked = of(&bytes);
    assert_eq!(walked.faults, []);
    assert_eq!(walked.size, bytes.len() as u64);
    assert_eq!(walked.version.unwrap().value, 0x0105_0000);
    assert_eq!(walked.rate.as_ref().unwrap().value, 2_822_400);
    assert_eq!(walked.channels.as_ref().unwrap().value, [Name(*b"SLFT"), Name(*b"SRGT")]);
    let compression = walked.compression.as_ref().unwrap();
    assert_eq!((compression.size, compression.value.name.as_slice()), (9, b"name".as_slice()));
    let time = walked.start.unwrap().value;
    assert_eq!(time, Time { hours: 1, minutes: 2, seconds: 3, samples: 37_633 });
    assert_eq!((time.frame(2_822_400), time.words(2_822_400).to_string()), (None, "01:02:03:01+1 samples".into()));
    assert_eq!(walked.speakers.unwrap().value, 0);
    let sound = walked.sound.unwrap();
    assert_eq!((sound.kind, sound.frame_count(9408)), (SoundKind::Dsd, 2));
    assert_eq!(sound.frame(1, 9408).unwrap().length, 4);
    assert_eq!(sound.frame(2, 9408), None);
    assert_eq!(walked.id.unwrap().value.bytes, b"id.");
    assert_eq!(walked.artist.unwrap().value.bytes, b"ab");
    assert_eq!(walked.title, None);
    let marker = &walked.markers[0].value;
    assert_eq!((marker.offset, marker.kind, marker.channel, marker.flags), (-2, 4, 2, 8));
    assert_eq!((marker.time.frame(2_822_400), marker.text.bytes.as_slice()), (Some(279_226), b"odd".as_slice()));
    assert_eq!((walked.markers[0].size, walked.markers[1].size), (26, 25));
    let comments = walked.comments.unwrap().value;
    assert_eq!((comments.len(), comments[0].year, comments[0].minutes), (2, 2000, 59));
    assert_eq!((comments[0].kind, comments[0].reference, comments[0].text.bytes.as_slice()), (3, 2, &b"odd"[..]));
    // EMID, both markers, the odd comment and ABCD, CMPR
    assert_eq!((walked.pads.count, walked.pads.wrong), (6, 0));
    let names: Vec<_> = walked.form.unwrap().chunks.iter().map(|chunk| chunk.name.to_string()).collect();
    assert_eq!(names, ["FVER", "PROP", "DSD ", "DIIN", "COMT", "ABCD"]);
}

#[test]
fn a_right_file_of_coded_sound() {
    let place = 16 + version().len() + coded_property().len() + 12 + frame_rate(2, 75).len();
    let mut entries = vec![];
    for (offset, length) in [(0u64, 3u32), (32, 4)] {
        entries.extend((place as u64 + offset).to_be_bytes());
        entries.extend(length.to_be_bytes());
    }
    let bytes = form(&[version(), coded_property(), coded_sound(), chunk(b"DSTI", &entries)]);
    let walked = of(&bytes);
    assert_eq!(walked.faults, []);
    let (sound, index) = (walked.sound.unwrap(), walked.index.unwrap());
    assert_eq!(sound.frames.iter().map(|frame| frame.length).collect::<Vec<_>>(), [3, 4]);
    assert_eq!(sound.frames[0].place, place as u64 + 12);
    assert_eq!(sound.crcs.iter().map(|crc| (crc.frame, crc.value)).collect::<Vec<_>>(), [(Some(0), 0x0102_0304)]);
    let report = index.against(&sound.frames);
    assert!(report.is_right());
    assert_eq!(report.leads, walk::Leads::ToHeader);
    let mut wrong = index.clone();
    wrong.entries[1].offset += 12;
    let report = wrong.against(&sound.frames);
    assert_eq!((report.wrong, report.first_wrong.unwrap().number), (1, 1));
    assert_eq!(report.first_wrong.unwrap().leads, walk::Leads::ToData);
}

#[test]
fn structure() {
    let right = form(&[version(), plain_property(), sound()]);
    assert_eq!(of(&right).faults, []);
    at_fault(b"", 49, 0, "0 bytes");
    at_fault(&right[..15], 49, 0, "15 bytes");
    at_fault(&[b"RIFF", &right[4..]].concat(), 49, 0, "begin with FRM8");
    at_fault(&[&right[..12], b"DST ", &right[16..]].concat(), 49, 0, "begin with FRM8");
    at_fault(b"FRM8\0\0\0\0\0\0\0\x03DSD ", 49, 0, "begin with FRM8");
    at_fault(&[&right[..], b"x"].concat(), 49, right.len() as u64, "1 bytes after FRM8");
    at_fault(&right[..right.len() - 1], 49, 0, "runs past the file's end");
    at_fault(b"FRM8\xff\xff\xff\xff\xff\xff\xff\xffDSD ", 49, 0, "runs past the file's end");
    at_fault(&form(&[version(), plain_property(), sound(), vec![0; 11]]), 49, right.len() as u64, "tail of 11 bytes");
    let mut long = chunk(b"ABCD", &[1, 2]);
    long[11] = 3;
    at_fault(&form(&[version(), plain_property(), sound(), long.clone()]), 49, right.len() as u64, "runs past");
    // the size fits, its pad does not
    let odd = form(&[version(), plain_property(), sound(), chunk(b"ABCD", &[1])]);
    let mut short = odd[..odd.len() - 1].to_vec();
    let size = short.len() as u64 - 12;
    short[4..12].copy_from_slice(&size.to_be_bytes());
    at_fault(&short, 49, 0, "runs past the file's end");
    short.push(0);
    at_fault(&short, 49, right.len() as u64, "chunk ABCD of size 1 runs past");
    let in_property = form(&[version(), property(&[rate(), long.clone()]), sound()]);
    at_fault(&in_property, 49, (16 + version().len() + 16 + rate().len()) as u64, "runs past PROP");
    let in_info = form(&[version(), plain_property(), sound(), chunk(b"DIIN", &long)]);
    at_fault(&in_info, 49, right.len() as u64 + 12, "runs past DIIN");
    let in_sound = form(&[version(), coded_property(), chunk(b"DST ", &[frame_rate(0, 75), long].concat())]);
    let place = 16 + version().len() + coded_property().len() + 12 + frame_rate(0, 75).len();
    at_fault(&in_sound, 49, place as u64, "runs past DST");
    at_fault(&form(&[version(), chunk(b"PROP", b"SN"), sound()]), 49, 16 + version().len() as u64, "PROP of size 2");
}

#[test]
fn presence() {
    let (v, p, s) = (version(), plain_property(), sound());
    let after = |parts: &[&Vec<u8>]| 16 + parts.iter().map(|part| part.len() as u64).sum::<u64>();
    at_fault(&form(&[p.clone(), s.clone()]), 50, 0, "no FVER");
    at_fault(&form(&[v.clone(), v.clone(), p.clone(), s.clone()]), 50, after(&[&v]), "FVER is repeated");
    at_fault(&form(&[v.clone(), s.clone()]), 50, 0, "no PROP");
    at_fault(&form(&[v.clone(), p.clone(), p.clone(), s.clone()]), 50, after(&[&v, &p]), "PROP is repeated");
    at_fault(&form(&[v.clone(), p.clone()]), 50, 0, "no sound chunk");
    at_fault(&form(&[v.clone(), p.clone(), s.clone(), s.clone()]), 50, after(&[&v, &p, &s]), "sound chunk is rep");
    at_fault(&form(&[v.clone(), p.clone(), s.clone(), coded_sound()]), 50, after(&[&v, &p, &s]), "sound chunk is");
    at_fault(&form(&[v.clone(), s.clone(), p.clone()]), 50, after(&[&v, &s]), "PROP after the sound");
    let all = [rate(), channels(), compression("DSD ")];
    for (missing, name) in ["FS", "CHNL", "CMPR"].into_iter().enumerate() {
        let mut parts = all.to_vec();
        parts.remove(missing);
        at_fault(&form(&[v.clone(), property(&parts), s.clone()]), 50, after(&[&v]), &format!("no {name}"));
        parts = all.to_vec();
        parts.push(all[missing].clone());
        let place = after(&[&v]) + 16 + all.concat().len() as u64;
        at_fault(&form(&[v.clone(), property(&parts), s.clone()]), 50, place, &format!("{name} is repeated"));
    }
    // 49 comes first, though it stands behind
    at_fault(&form(&[p.clone(), s.clone(), vec![0; 3]]), 49, after(&[&p, &s]), "tail");
}

#[test]
fn fields() {
    let (f, c, m) = (rate(), channels(), compression("DSD "));
    at_fault(&form(&[chunk(b"FVER", b"abc"), plain_property(), sound()]), 51, 16, "FVER of size 3");
    let mut bytes = form(&[version(), plain_property(), sound()]);
    bytes[16 + 16 + 12 + 3] = b'!';
    at_fault(&bytes, 51, 32, "type \"SND!\"");
    in_property(&[chunk(b"FS  ", &[0; 3]), c.clone(), m.clone()], 0, "FS   of size 3");
    in_property(&[chunk(b"FS  ", &44_100u32.to_be_bytes()), c.clone(), m.clone()], 0, "the rate is 44100");
    in_property(&[f.clone(), chunk(b"CHNL", &[0]), m.clone()], 1, "CHNL of size 1");
    in_property(&[f.clone(), chunk(b"CHNL", &[0, 0]), m.clone()], 1, "no channels");
    in_property(&[f.clone(), chunk(b"CHNL", b"\0\x02SLFTSRG"), m.clone()], 1, "no room for 2 channels");
    in_property(&[f.clone(), c.clone(), chunk(b"CMPR", b"DSD ")], 2, "CMPR of size 4");
    in_property(&[f.clone(), c.clone(), chunk(b"CMPR", b"DSD \x05name")], 2, "no room for a name of 5");
    in_property(&[f.clone(), c.clone(), compression("DST ")], 2, "compression type");
    in_property(&[f.clone(), c.clone(), m.clone(), chunk(b"ABSS", &[0; 7])], 3, "ABSS of size 7");
    in_property(&[f.clone(), c.clone(), m.clone(), chunk(b"LSCO", &[0])], 3, "LSCO of size 1");
    in_info(chunk(b"DIAR", &[0; 3]), "DIAR of size 3");
    in_info(text(b"DITI", 3, b"ab"), "no room for a text of 3");
    in_info(chunk(b"MARK", &[0; 21]), "MARK of size 21");
    in_info(marker(1, b""), "no room for a text of 1");
    in_info(marker(u32::MAX, b""), "no room for a text");
    let with = |data: &[u8]| form(&[version(), plain_property(), sound(), chunk(b"COMT", data)]);
    let place = form(&[version(), plain_property(), sound()]).len() as u64;
    at_fault(&with(&[0]), 51, place, "COMT of size 1");
    at_fault(&with(&[0, 1]), 51, place, "ends in comment 0 of 1");
    at_fault(&with(&[vec![0, 2], comment(0, b"")].concat()), 51, place, "ends in comment 1 of 2");
    at_fault(&with(&[vec![0, 1], comment(2, b"x")].concat()), 51, place + 14, "no room for comment 0");
    // the text fits, its pad does not
    at_fault(&with(&[vec![0, 1], comment(1, b"x")].concat()), 51, place + 14, "no room for comment 0");
}

#[test]
fn fields_of_coded_sound() {
    let place = (16 + version().len() + coded_property().len()) as u64;
    let with = |parts: &[Vec<u8>]| form(&[version(), coded_property(), chunk(b"DST ", &parts.concat())]);
    let frame = chunk(b"DSTF", &[1; 3]);
    at_fault(&with(&[]), 51, place, "begin with FRTE");
    at_fault(&with(&[frame.clone(), frame_rate(1, 75)]), 51, place, "begin with FRTE");
    at_fault(&with(&[chunk(b"FRTE", &[0; 5])]), 51, place + 12, "FRTE of size 5");
    at_fault(&with(&[frame_rate(1, 74), frame.clone()]), 51, place + 12, "the frame rate is 74");
    at_fault(&with(&[frame_rate(2, 75), frame.clone()]), 51, place + 12, "FRTE tells 2 frames, there are 1");
    let short = [frame_rate(1, 75), frame.clone(), chunk(b"DSTC", &[0; 3])];
    at_fault(&with(&short), 51, place + 12 + 18 + 16, "DSTC of size 3");
    assert_eq!(of(&with(&[frame_rate(1, 75), chunk(b"ABCD", &[1]), frame])).sound.unwrap().others, 1);
}

#[test]
fn repeats_that_are_passed_over() {
    let parts = [rate(), channels(), compression("DSD "), chunk(b"LSCO", &[0, 0]), chunk(b"LSCO", &[0, 9])];
    let info = [chunk(b"EMID", b"one"), chunk(b"EMID", b"two")].concat();
    let tail = [chunk(b"DIIN", &info), chunk(b"DIIN", &[1, 2, 3]), chunk(b"COMT", &[0, 0]), chunk(b"COMT", &[])];
    let walked = of(&form(&[version(), property(&parts), sound(), tail.concat()]));
    assert_eq!(walked.faults, []);
    assert_eq!((walked.speakers.unwrap().value, walked.id.unwrap().value.bytes.as_slice()), (0, b"one".as_slice()));
    assert_eq!(walked.comments.unwrap().value, []);
}

/// A sparse file of any size takes no more than the limits.
#[test]
fn limits() {
    struct Zeros(Vec<u8>, u64);
    impl walk::Bytes for Zeros {
        fn size(&self) -> std::io::Result<u64> {
            Ok(self.1)
        }
        fn read_at(&self, buf: &mut [u8], place: u64) -> std::io::Result<()> {
            for (i, byte) in buf.iter_mut().enumerate() {
                *byte = usize::try_from(place).ok().and_then(|p| self.0.get(p + i)).copied().unwrap_or(0);
            }
            Ok(())
        }
    }
    let size = 1u64 << 50;
    let head = [b"FRM8".as_slice(), &(size - 12).to_be_bytes(), b"DSD "].concat();
    let walked = walk(&Zeros(head.clone(), size)).unwrap();
    let last = walked.faults.last().unwrap();
    let own = "which is a limit of this program, not of the format";
    assert_eq!((last.rule, &last.words), (Rule::Limits, &format!("more chunks than 262144, {own}")));
    let text = [head, b"DIIN".to_vec(), (1u64 << 40).to_be_bytes().into(), b"EMID".to_vec()].concat();
    let walked = walk(&Zeros([text, (1u64 << 39).to_be_bytes().to_vec()].concat(), size)).unwrap();
    let words = format!("more bytes of texts than 64 MiB, {own}");
    assert!(walked.faults.iter().any(|fault| (fault.rule, &fault.words) == (Rule::Limits, &words)));
    assert!(walked.id.is_none());
}

/// Bytes behind the fields are no fault, and stand apart with the chunk's place.
#[test]
fn leftovers() {
    let longer = |part: &[u8], by: usize| chunk(&part[..4].try_into().unwrap(), &[&part[12..], &vec![0; by]].concat());
    let comments = |by: usize| chunk(b"COMT", &[vec![0, 1], comment(3, b"odd\0"), vec![0; by]].concat());
    let start = chunk(b"ABSS", &[0; 8]);
    let speakers = chunk(b"LSCO", &[0; 2]);
    let file = |top: &[Vec<u8>], in_property: &[Vec<u8>], in_info: &[Vec<u8>]| {
        let all = property(&[vec![rate(), channels(), compression("DSD ")], in_property.to_vec()].concat().to_vec());
        of(&form(&[vec![version(), all, sound(), chunk(b"DIIN", &in_info.concat())], top.to_vec()].concat()))
    };
    let told = |walked: Walk| {
        assert_eq!(walked.faults, []);
        walked.leftovers.iter().map(ToString::to_string).collect::<Vec<_>>()
    };
    // none: the texts' pads are counted or not, EMID is all text
    let info = [chunk(b"EMID", b"id"), marker(3, b"odd"), marker(3, b"odd\0"), text(b"DIAR", 1, b"a\0")];
    assert_eq!(told(file(&[comments(0)], &[start.clone(), speakers.clone()], &info)), [""; 0]);
    let property_parts = [longer(&start, 2), longer(&speakers, 1)];
    let words = ["ABSS has 10 bytes, its fields have 8", "LSCO has 3 bytes, its fields have 2"];
    assert_eq!(told(file(&[], &property_parts, &[])), words);
    let info = [marker(3, b"odd\0\0"), marker(2, b"ab\0"), text(b"DIAR", 0, b"\0"), text(b"DITI", 1, b"a\0\0")];
    let words = [
        "MARK has 27 bytes, its fields have 25",
        "MARK has 25 bytes, its fields have 24",
        "DIAR has 5 bytes, its fields have 4",
        "DITI has 7 bytes, its fields have 5",
    ];
    assert_eq!(told(file(&[], &[], &info)), words);
    assert_eq!(told(file(&[comments(1)], &[], &[])), ["COMT has 21 bytes, its fields have 20"]);
    let parts = [longer(&rate(), 4), longer(&channels(), 4), chunk(b"CMPR", b"DSD \x04name\0\0")];
    let walked = of(&form(&[longer(&version(), 1), property(&parts), sound()]));
    let place = 16 + 12 + 6 + 16;
    assert_eq!(walked.leftovers.iter().map(|left| left.place).collect::<Vec<_>>(), [16, place, place + 20, place + 46]);
    let words = [
        "FVER has 5 bytes, its fields have 4",
        "FS has 8 bytes, its fields have 4",
        "CHNL has 14 bytes, its fields have 10",
        "CMPR has 11 bytes, its fields have 9",
    ];
    assert_eq!(told(walked), words);
    // D1's pad is counted; that of an even name and count is none
    let with = |data: &[u8]| of(&form(&[version(), property(&[rate(), channels(), chunk(b"CMPR", data)]), sound()]));
    assert_eq!(told(with(b"DSD \x04name\0")), [""; 0]);
    assert_eq!(told(with(b"DSD \x03nam\0")), ["CMPR has 9 bytes, its fields have 8"]);
    let coded = [longer(&frame_rate(1, 75), 2), chunk(b"DSTF", &[1; 3]), chunk(b"DSTC", &[0; 6])];
    let index = chunk(b"DSTI", &[0; 13]);
    let walked = of(&form(&[version(), coded_property(), chunk(b"DST ", &coded.concat()), index]));
    let crc = walked.sound.as_ref().unwrap().crcs[0].leftover().unwrap();
    assert_eq!(crc.to_string(), "DSTC has 6 bytes, its fields have 4");
    assert_eq!(told(walked), ["FRTE has 8 bytes, its fields have 6", "DSTI has 13 bytes, its fields have 12"]);
    // comments at fault end nowhere
    let walked = file(&[chunk(b"COMT", &[vec![0, 2], comment(0, b""), vec![0; 3]].concat())], &[], &[]);
    assert_eq!((walked.faults.len(), walked.leftovers.len()), (1, 0));
}

/// Of very many faults the first are listed, and the others counted.
#[test]
fn very_many_faults() {
    let markers = chunk(b"MARK", &[]).repeat(1203);
    let walked = of(&form(&[version(), plain_property(), sound(), chunk(b"DIIN", &markers)]));
    assert_eq!((walked.faults.len(), walked.unlisted), (1000, 203));
}
