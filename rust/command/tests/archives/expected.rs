//! What the command has to say, by the independent implementation.

use compare::json::Json;
use compare::texts::which;
use independent::refusal::NOT_TEXT;
use independent::LENGTHS_LIMIT;
use independent::{
    check, read, read_header, Inode, Lacking, Reading, Refusal, Set, SetFault, Verdict,
};

use crate::given::place;

/// Fields of an object with their values.
pub type Fields = Vec<(&'static str, Json)>;

/// Fails unless the object has these fields.
pub fn has(object: &Json, fields: &Fields) -> Result<(), String> {
    for (name, value) in fields {
        if object.field(name) != value {
            return Err(format!("{name} is not {value:?} in {object:?}"));
        }
    }
    Ok(())
}

pub fn number(value: u64) -> Json {
    Json::Number(value.to_string())
}

pub fn text(text: &str) -> Json {
    Json::Text(text.into())
}

fn hexadecimal(bytes: &[u8]) -> Json {
    Json::Text(bytes.iter().map(|byte| format!("{byte:02x}")).collect())
}

/// The block at fault after so many. The header stands at 0, and no block does.
fn at_fault(offset: u64, blocks: u64) -> Json {
    match offset {
        0 => Json::Null,
        _ => number(blocks),
    }
}

/// Which text of the block at an offset is at fault and where. Beside another number than 10 nothing
/// is said of texts.
fn bad_text(volume: &[u8], offset: u64, refusal: Refusal) -> Fields {
    let is_text = refusal.number == NOT_TEXT;
    let told = |value| if is_text { number(value) } else { Json::Null };
    let which = which(volume, offset, refusal);
    vec![
        ("text", told(refusal.text)),
        ("start", told(refusal.start)),
        ("which", which.map_or(Json::Null, Json::Text)),
    ]
}

/// What the check says of a volume.
pub fn verdict(volume: &[u8]) -> Fields {
    match (check(volume), read_header(volume)) {
        (
            Verdict::Accepted {
                sequence,
                blocks,
                end,
            },
            Ok(header),
        ) => vec![
            ("sequence", number(sequence)),
            ("id", hexadecimal(header.id)),
            ("previous", hexadecimal(header.previous)),
            ("blocks", number(blocks)),
            ("end", number(end.offset)),
            ("time", end.last.map_or(Json::Null, number)),
        ],
        (
            Verdict::Refused {
                refusal,
                offset,
                blocks,
            },
            _,
        ) => {
            let mut fields = vec![
                ("refused", number(refusal.number)),
                ("offset", number(offset)),
                ("block", at_fault(offset, blocks)),
                ("blocks", number(blocks)),
            ];
            fields.extend(bad_text(volume, offset, refusal));
            fields
        }
        (Verdict::Accepted { .. }, Err(refused)) => unreachable!("header refused: {refused:?}"),
    }
}

/// What the check says of a set.
pub fn summary(set: &Set<'_>) -> Fields {
    let ranges = set.missing();
    let pair = |range: &std::ops::RangeInclusive<u64>| {
        Json::List(vec![number(*range.start()), number(*range.end())])
    };
    vec![
        ("set", Json::Bool(true)),
        ("id", hexadecimal(&set.id())),
        ("volumes", number(set.volumes().len() as u64)),
        ("missing", Json::List(ranges.iter().map(pair).collect())),
    ]
}

/// The number of an inode's block: how many are read before it.
pub fn block(set: &Set<'_>, inode: &Inode<'_>) -> Json {
    let volume = set.volumes()[&inode.volume];
    let mut mark = read_header(volume).expect("an accepted header").next;
    let mut before = 0;
    while mark.offset < inode.offset {
        let Ok(Reading::Block(_, next)) = read(volume, mark) else {
            unreachable!("no block at {mark:?}");
        };
        mark = next;
        before += 1;
    }
    number(before)
}

/// What is said of an inode.
pub fn inode(set: &Set<'_>, inode: &Inode<'_>) -> Fields {
    let stat = &inode.stat;
    let mut fields = vec![
        ("inode", number(stat.inode)),
        ("size", number(stat.size)),
        ("volume", number(inode.volume)),
        ("block", block(set, inode)),
        ("offset", number(inode.offset)),
        ("mode", number(stat.mode.into())),
        ("uid", number(stat.uid.into())),
        ("gid", number(stat.gid.into())),
        ("time", number(stat.time)),
        ("atime", number(stat.atime)),
        ("mtime", number(stat.mtime)),
        ("ctime", number(stat.ctime)),
        ("btime", number(stat.btime)),
    ];
    match stat.mode >> 12 {
        4 => fields.push(("type", text("folder"))),
        8 => fields.push(("type", text("regular"))),
        10 => fields.push(("type", text("symbolic link"))),
        _ => {}
    }
    let taken_away = inode.last_link.is_some_and(|link| link.taken_away);
    fields.push(("unlinked", Json::Bool(taken_away)));
    let (name, parent, cut) = match inode.last_link {
        Some(link) => {
            let (name, cut) = beginning(link.name);
            (text(name), number(link.parent), Json::Bool(cut))
        }
        None => (Json::Null, Json::Null, Json::Null),
    };
    fields.extend([("name", name), ("parent", parent), ("cut", cut)]);
    fields
}

/// As many characters of a name as 255 bytes have room for, and whether there are more.
fn beginning(name: &[u8]) -> (&str, bool) {
    let name = std::str::from_utf8(name).expect("an accepted name is text");
    let ends = name
        .char_indices()
        .map(|(at, letter)| at + letter.len_utf8());
    let end = ends.take_while(|end| *end <= 255).last().unwrap_or(0);
    (&name[..end], end < name.len())
}

/// A run, as the command shows it.
pub fn run(run: &[u64; 5]) -> Fields {
    let kind = if run[2] == 1 { "stored" } else { "hole" };
    let mut fields = vec![
        ("start", number(run[0])),
        ("length", number(run[1])),
        ("kind", text(kind)),
    ];
    if run[2] == 1 {
        fields.push(("volume", number(run[3])));
        fields.push(("offset", number(run[4])));
    }
    fields
}

/// The fault of a set of these volumes that an object tells: none if it says something of texts that
/// does not belong there.
pub fn fault(volumes: &[&[u8]], object: &Json) -> Option<SetFault> {
    let told = place(object, "file")?;
    let value = |name| object.field(name).number();
    if let Some(number) = value("refused") {
        let offset = value("offset")?;
        let refusal = Refusal {
            number,
            text: value("text").unwrap_or(0),
            start: value("start").unwrap_or(0),
        };
        has(object, &bad_text(volumes.get(told)?, offset, refusal)).ok()?;
        return Some(SetFault::Refused {
            place: told,
            refusal,
            offset,
            blocks: value("blocks")?,
        });
    }
    let other = place(object, "other")?;
    let (first, second) = (told.min(other), told.max(other));
    let words = object.field("error").text()?;
    if words.contains("another file system") {
        return Some(SetFault::Foreign { first, second });
    }
    let (_, after) = words.split_once("has sequence number ")?;
    let sequence = after.split(',').next()?.parse().ok()?;
    Some(SetFault::Double {
        first,
        second,
        sequence,
    })
}

/// Fails unless the object names the volumes and extents that are lacking. A volume for which no
/// length can be lent may be called either.
pub fn lacks(object: &Json, lacking: &Lacking) -> Result<(), String> {
    let missing = object.field("missing").items().iter().map(Json::number);
    let mut missing: Vec<Option<u64>> = missing.collect();
    let mut short = Vec::new();
    for extent in object.field("short").items() {
        let value = |name| extent.field(name).number();
        match value("volume") {
            Some(volume) if volume >= LENGTHS_LIMIT as u64 => missing.push(Some(volume)),
            volume => short.push((value("extent"), volume, value("length"))),
        }
    }
    missing.sort_unstable();
    missing.dedup();
    let volumes = lacking.volumes.union(&lacking.unlisted);
    let volumes: Vec<Option<u64>> = volumes.copied().map(Some).collect();
    let beyond = lacking.beyond.iter();
    let beyond: Vec<_> = beyond
        .map(|b| (Some(b.index as u64), Some(b.volume), Some(b.length)))
        .collect();
    if (&missing, &short) == (&volumes, &beyond) {
        return Ok(());
    }
    Err(format!("not {lacking:?} in {object:?}"))
}
