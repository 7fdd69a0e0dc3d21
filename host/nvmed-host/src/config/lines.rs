#![forbid(unsafe_code)]
//! The kinds of lines. What can be seen of a line, and of those before it, is checked here. What is wrong is a text, without the line's number.

use std::ffi::OsString;
use std::os::unix::ffi::{OsStrExt, OsStringExt};
use std::path::PathBuf;
use std::time::Duration;

use super::words::{number, shown, size, small};
use super::{
    Doorbells, DriveConfig, ExtentConfig, Interrupts, MOST_DRIVE_BLOCKS, MOST_EXTENTS, MOST_EXTENTS_IN_ALL,
    MOST_GUESTS, MOST_GUEST_BLOCKS, MOST_LANES, MOST_MEMORY, MOST_PATH, MOST_SOCKET, MOST_USER, MOST_WORDS,
    MOST_WORDS_OF_START, TAGS,
};
use crate::machine::Machine;
use crate::mediation::limits::{Limit, LEAST_BYTES, MOST_BYTES, MOST_IOPS};

type Outcome = Result<(), String>;

/// A value, and the line that says it.
#[derive(Clone, Debug)]
pub(super) struct Said<T> {
    pub value: T,
    pub line: u32,
}

/// What the lines up to one have said.
#[derive(Debug, Default)]
pub(super) struct Draft {
    pub drive: Option<Said<DriveConfig>>,
    pub lanes: Option<u32>,
    pub spin: Option<Duration>,
    pub control: Option<Said<PathBuf>>,
    pub guests: Vec<GuestDraft>,
}

/// What they have said of a guest.
#[derive(Debug)]
pub(super) struct GuestDraft {
    pub line: u32,
    pub memory: u64,
    pub file: Option<PathBuf>,
    pub machine: Option<Said<Machine>>,
    pub trust: bool,
    pub extents: Vec<ExtentConfig>,
    pub share: Option<Said<u32>>,
    pub limit: Limit,
    pub descriptors: Option<u32>,
    pub version: Option<u32>,
    pub doorbells: Option<Said<Doorbells>>,
    pub interrupts: Option<Interrupts>,
    pub listen: Option<Said<PathBuf>>,
    pub user: Option<Said<String>>,
    pub start: Option<Said<Vec<OsString>>>,
}

/// A kind of line: its first word, and how many words it has with that one.
struct Kind {
    name: &'static str,
    least: usize,
    most: usize,
    act: fn(&mut Draft, u32, &[Vec<u8>]) -> Outcome,
}

const KINDS: [Kind; 17] = [
    Kind {
        name: "guest",
        least: 4,
        most: 5,
        act: Draft::on_guest,
    },
    Kind {
        name: "extent",
        least: 4,
        most: 4,
        act: Draft::on_extent,
    },
    Kind {
        name: "share",
        least: 3,
        most: 3,
        act: Draft::on_share,
    },
    Kind {
        name: "limit",
        least: 4,
        most: 4,
        act: Draft::on_limit,
    },
    Kind {
        name: "descriptors",
        least: 3,
        most: 3,
        act: Draft::on_descriptors,
    },
    Kind {
        name: "version",
        least: 3,
        most: 3,
        act: Draft::on_version,
    },
    Kind {
        name: "machine",
        least: 3,
        most: 3,
        act: Draft::on_machine,
    },
    Kind {
        name: "trust",
        least: 2,
        most: 2,
        act: Draft::on_trust,
    },
    Kind {
        name: "doorbells",
        least: 3,
        most: 3,
        act: Draft::on_doorbells,
    },
    Kind {
        name: "interrupts",
        least: 3,
        most: 3,
        act: Draft::on_interrupts,
    },
    Kind {
        name: "listen",
        least: 3,
        most: 3,
        act: Draft::on_listen,
    },
    Kind {
        name: "user",
        least: 3,
        most: 3,
        act: Draft::on_user,
    },
    Kind {
        name: "start",
        least: 3,
        most: MOST_WORDS,
        act: Draft::on_start,
    },
    Kind {
        name: "drive",
        least: 3,
        most: 4,
        act: Draft::on_drive,
    },
    Kind {
        name: "lanes",
        least: 2,
        most: 2,
        act: Draft::on_lanes,
    },
    Kind {
        name: "spin",
        least: 2,
        most: 2,
        act: Draft::on_spin,
    },
    Kind {
        name: "control",
        least: 2,
        most: 2,
        act: Draft::on_control,
    },
];

/// The versions that a guest may be shown, as the property VS has them: major in bits 31:16, minor in 15:8, tertiary in 7:0.
const VERSIONS: [(&[u8], u32); 7] = [
    (b"1.0", 0x1_0000),
    (b"1.1", 0x1_0100),
    (b"1.2", 0x1_0200),
    (b"1.2.1", 0x1_0201),
    (b"1.3", 0x1_0300),
    (b"1.4", 0x1_0400),
    (b"2.0", 0x2_0000),
];

/// The first words of all kinds of lines.
pub(super) fn kinds() -> impl Iterator<Item = &'static str> {
    KINDS.iter().map(|kind| kind.name)
}

impl Draft {
    /// Takes a line's words. An empty line says nothing.
    pub(super) fn take(&mut self, line: u32, words: &[Vec<u8>]) -> Outcome {
        let Some(first) = words.first() else { return Ok(()) };
        let Some(kind) = KINDS.iter().find(|kind| kind.name.as_bytes() == first) else {
            return Err(format!("unknown word: {}", shown(first)));
        };
        if words.len() < kind.least {
            return Err(format!("'{}' has too few words", kind.name));
        }
        if words.len() > kind.most {
            return Err(format!("'{}' has too many words", kind.name));
        }
        (kind.act)(self, line, words)
    }

    /// `guest G memory SIZE [FILE]`
    fn on_guest(&mut self, line: u32, words: &[Vec<u8>]) -> Outcome {
        let index = guest_number(words)?;
        if let Some(guest) = self.guests.get(index) {
            return Err(format!("guest {index} stands in line {} already", guest.line));
        }
        if index != self.guests.len() {
            let next = self.guests.len();
            return Err(format!(
                "guests are numbered from 0 in order: this one should be {next}"
            ));
        }
        if word(words, 2) != b"memory" {
            return Err(format!("'memory' is expected, not '{}'", shown(word(words, 2))));
        }
        let memory = size("the guest's memory", word(words, 3), MOST_MEMORY)?;
        let others: u64 = self.guests.iter().map(|g| g.memory).sum();
        if memory > MOST_MEMORY - others {
            return Err(format!(
                "the guests' memories are more than {MOST_MEMORY} bytes together"
            ));
        }
        let file = match words.get(4) {
            Some(path) => Some(self.new_file("the guest's memory", path)?),
            None => None,
        };
        self.guests.push(GuestDraft {
            line,
            memory,
            file,
            machine: None,
            trust: false,
            extents: Vec::new(),
            share: None,
            limit: Limit::default(),
            descriptors: None,
            version: None,
            doorbells: None,
            interrupts: None,
            listen: None,
            user: None,
            start: None,
        });
        Ok(())
    }

    /// `extent G BASE BLOCKS`
    fn on_extent(&mut self, line: u32, words: &[Vec<u8>]) -> Outcome {
        let index = self.guest_index(words)?;
        let base = number("the first block", word(words, 2), 0, MOST_DRIVE_BLOCKS - 1)?;
        let blocks = number("the count of blocks", word(words, 3), 1, MOST_DRIVE_BLOCKS - base)?;
        let new = ExtentConfig { base, blocks, line };
        let all: usize = self.guests.iter().map(|g| g.extents.len()).sum();
        for (number, guest) in self.guests.iter().enumerate() {
            if let Some(met) = guest.extents.iter().find(|e| e.base < new.end() && new.base < e.end()) {
                return Err(format!("its blocks meet those of guest {number} in line {}", met.line));
            }
        }
        let guest = self.guest(index)?;
        if guest.extents.len() == MOST_EXTENTS {
            return Err(format!("the guest has {MOST_EXTENTS} extents already"));
        }
        if all == MOST_EXTENTS_IN_ALL {
            return Err(format!("the guests have {MOST_EXTENTS_IN_ALL} extents already"));
        }
        let sum: u64 = guest.extents.iter().map(|e| e.blocks).sum();
        if blocks > MOST_GUEST_BLOCKS - sum {
            return Err(format!("the guest has more than {MOST_GUEST_BLOCKS} blocks in all"));
        }
        guest.extents.push(new);
        Ok(())
    }

    /// `share G TAGS`
    fn on_share(&mut self, line: u32, words: &[Vec<u8>]) -> Outcome {
        let guest = self.guest_of(words)?;
        if let Some(former) = &guest.share {
            return Err(format!("the guest's share is in line {} already", former.line));
        }
        guest.share = Some(Said {
            value: small("the share of tags", word(words, 2), 1, TAGS)?,
            line,
        });
        Ok(())
    }

    /// `descriptors G N`
    fn on_descriptors(&mut self, _line: u32, words: &[Vec<u8>]) -> Outcome {
        let guest = self.guest_of(words)?;
        once(&guest.descriptors, "the guest's count of descriptors stands")?;
        guest.descriptors = Some(small("the count of descriptors", word(words, 2), 1, 4096)?);
        Ok(())
    }

    /// `version G X.Y`
    fn on_version(&mut self, _line: u32, words: &[Vec<u8>]) -> Outcome {
        let guest = self.guest_of(words)?;
        once(&guest.version, "the guest's version stands")?;
        let name = word(words, 2);
        let Some((_, value)) = VERSIONS.iter().find(|(known, _)| *known == name) else {
            return Err(format!(
                "the version is none of 1.0, 1.1, 1.2, 1.2.1, 1.3, 1.4 and 2.0: {}",
                shown(name)
            ));
        };
        guest.version = Some(*value);
        Ok(())
    }

    /// `limit G iops N` or `limit G bytes SIZE`
    fn on_limit(&mut self, _line: u32, words: &[Vec<u8>]) -> Outcome {
        let limit = &mut self.guest_of(words)?.limit;
        match word(words, 2) {
            b"iops" => {
                once(&limit.iops, "the guest's limit of commands stands")?;
                limit.iops = Some(number("the limit of commands", word(words, 3), 1, MOST_IOPS)?);
            }
            b"bytes" => {
                once(&limit.bytes, "the guest's limit of bytes stands")?;
                let bytes = size("the limit of bytes", word(words, 3), MOST_BYTES)?;
                if bytes < LEAST_BYTES {
                    return Err(format!(
                        "the limit of bytes is {bytes}, and a command may have {LEAST_BYTES}"
                    ));
                }
                limit.bytes = Some(bytes);
            }
            other => return Err(format!("the limit is neither of iops nor of bytes: {}", shown(other))),
        }
        Ok(())
    }

    /// `machine G q35|pc`
    fn on_machine(&mut self, line: u32, words: &[Vec<u8>]) -> Outcome {
        let guest = self.guest_of(words)?;
        once(&guest.machine, "the guest's machine stands")?;
        let value = one_of(
            "the machine",
            word(words, 2),
            [("q35", Machine::Q35), ("pc", Machine::Pc)],
        )?;
        guest.machine = Some(Said { value, line });
        Ok(())
    }

    /// `trust G`
    fn on_trust(&mut self, _line: u32, words: &[Vec<u8>]) -> Outcome {
        let guest = self.guest_of(words)?;
        once(&guest.trust.then_some(()), "the guest is trusted")?;
        guest.trust = true;
        Ok(())
    }

    /// `doorbells G page|messages`
    fn on_doorbells(&mut self, line: u32, words: &[Vec<u8>]) -> Outcome {
        let guest = self.guest_of(words)?;
        once(&guest.doorbells, "how the guest rings its doorbells stands")?;
        let known = [("page", Doorbells::Page), ("messages", Doorbells::Messages)];
        guest.doorbells = Some(Said {
            value: one_of("the kind of doorbells", word(words, 2), known)?,
            line,
        });
        Ok(())
    }

    /// `interrupts G messages|pin`
    fn on_interrupts(&mut self, _line: u32, words: &[Vec<u8>]) -> Outcome {
        let guest = self.guest_of(words)?;
        once(&guest.interrupts, "how the guest is interrupted stands")?;
        let known = [("messages", Interrupts::Messages), ("pin", Interrupts::Pin)];
        guest.interrupts = Some(one_of("the kind of interrupts", word(words, 2), known)?);
        Ok(())
    }

    /// `listen G PATH`
    fn on_listen(&mut self, line: u32, words: &[Vec<u8>]) -> Outcome {
        let index = self.guest_index(words)?;
        let value = path("the socket", word(words, 2), MOST_SOCKET)?;
        if self.control.as_ref().is_some_and(|control| control.value == value) {
            return Err(String::from("this is the control socket of a former line"));
        }
        let same = |g: &GuestDraft| g.listen.as_ref().is_some_and(|other| other.value == value);
        let taken = self.guests.iter().position(same);
        let guest = self.guest(index)?;
        if guest.listen.is_some() || guest.start.is_some() {
            return Err(String::from("how the guest connects stands in a former line already"));
        }
        if let Some(other) = taken {
            return Err(format!("guest {other} listens on this socket already"));
        }
        guest.listen = Some(Said { value, line });
        Ok(())
    }

    /// `user G NAME`
    fn on_user(&mut self, line: u32, words: &[Vec<u8>]) -> Outcome {
        let guest = self.guest_of(words)?;
        once(&guest.user, "the user of the guest's client stands")?;
        let Some(name) = user_name(word(words, 2)) else {
            return Err(format!("the user has no name of 1 to {MOST_USER} bytes in UTF-8"));
        };
        let value = name.to_owned();
        guest.user = Some(Said { value, line });
        Ok(())
    }

    /// `start G WORD..`: more of these lines add words.
    fn on_start(&mut self, line: u32, words: &[Vec<u8>]) -> Outcome {
        let guest = self.guest_of(words)?;
        if guest.listen.is_some() {
            return Err(String::from("the guest listens on a socket already"));
        }
        if guest.start.is_none() && word(words, 2).is_empty() {
            return Err(String::from("the program to start has an empty name"));
        }
        let start = guest.start.get_or_insert(Said {
            value: Vec::new(),
            line,
        });
        let new = words.get(2..).unwrap_or_default();
        if start.value.len() + new.len() > MOST_WORDS_OF_START {
            return Err(format!("the guest's program has more than {MOST_WORDS_OF_START} words"));
        }
        start.value.extend(new.iter().cloned().map(OsString::from_vec));
        Ok(())
    }

    /// `drive ram SIZE [FILE]`, `drive file PATH`, `drive nvme PATH`, `drive qemu SOCKET FILE` or `drive vfio ADDRESS`
    fn on_drive(&mut self, line: u32, words: &[Vec<u8>]) -> Outcome {
        once(&self.drive, "the drive stands")?;
        let value = match (word(words, 1), words.get(3)) {
            (b"ram", image) => DriveConfig::Ram {
                bytes: size("the drive", word(words, 2), MOST_MEMORY)?,
                image: image.map(|image| self.new_file("the drive", image)).transpose()?,
            },
            (b"file", None) => DriveConfig::File {
                path: self.new_file("the drive", word(words, 2))?,
            },
            (b"file", Some(_)) => return Err(String::from("'drive file' has one path")),
            (b"nvme", None) => DriveConfig::Nvme {
                path: self.new_file("the drive", word(words, 2))?,
            },
            (b"nvme", Some(_)) => return Err(String::from("'drive nvme' has one path")),
            (b"qemu", Some(memory)) => DriveConfig::Qemu {
                socket: path("the socket", word(words, 2), MOST_SOCKET)?,
                memory: self.new_file("the drive's memory", memory)?,
            },
            (b"qemu", None) => return Err(String::from("'drive qemu' has a socket and the file of its memory")),
            (b"vfio", Some(_)) => return Err(String::from("'drive vfio' has one address")),
            (b"vfio", None) => DriveConfig::Vfio {
                address: pci_address(word(words, 2))?,
            },
            (kind, _) => {
                return Err(format!(
                    "the drive is none of ram, file, nvme, qemu and vfio: {}",
                    shown(kind)
                ))
            }
        };
        self.drive = Some(Said { value, line });
        Ok(())
    }

    /// `lanes N`
    fn on_lanes(&mut self, _line: u32, words: &[Vec<u8>]) -> Outcome {
        once(&self.lanes, "the lanes stand")?;
        self.lanes = Some(small("the count of lanes", word(words, 1), 1, MOST_LANES)?);
        Ok(())
    }

    /// `spin MICROSECONDS`
    fn on_spin(&mut self, _line: u32, words: &[Vec<u8>]) -> Outcome {
        once(&self.spin, "the spin stands")?;
        self.spin = Some(Duration::from_micros(number("the spin", word(words, 1), 0, 1_000_000)?));
        Ok(())
    }

    /// `control PATH`
    fn on_control(&mut self, line: u32, words: &[Vec<u8>]) -> Outcome {
        once(&self.control, "the control socket stands")?;
        let value = path("the control socket", word(words, 1), MOST_SOCKET)?;
        let same = |g: &GuestDraft| g.listen.as_ref().is_some_and(|other| other.value == value);
        if let Some(guest) = self.guests.iter().position(same) {
            return Err(format!("guest {guest} listens on this socket already"));
        }
        self.control = Some(Said { value, line });
        Ok(())
    }

    /// The number of the guest that word 1 names.
    fn guest_index(&self, words: &[Vec<u8>]) -> Result<usize, String> {
        let index = guest_number(words)?;
        if index < self.guests.len() {
            return Ok(index);
        }
        Err(format!("guest {index} has no line 'guest' before this one"))
    }

    fn guest(&mut self, index: usize) -> Result<&mut GuestDraft, String> {
        self.guests
            .get_mut(index)
            .ok_or_else(|| format!("guest {index} has no line 'guest' before this one"))
    }

    /// The guest that word 1 names.
    fn guest_of(&mut self, words: &[Vec<u8>]) -> Result<&mut GuestDraft, String> {
        let index = self.guest_index(words)?;
        self.guest(index)
    }

    /// The path of a file that is no other's.
    fn new_file(&self, what: &str, text: &[u8]) -> Result<PathBuf, String> {
        let new = path(what, text, MOST_PATH)?;
        let of_drive = match self.drive.as_ref().map(|drive| &drive.value) {
            Some(DriveConfig::Ram { image, .. }) => image.as_ref(),
            Some(DriveConfig::File { path } | DriveConfig::Nvme { path }) => Some(path),
            Some(DriveConfig::Qemu { memory, .. }) => Some(memory),
            Some(DriveConfig::Vfio { .. }) | None => None,
        };
        if of_drive
            .into_iter()
            .chain(self.guests.iter().filter_map(|g| g.file.as_ref()))
            .any(|taken| *taken == new)
        {
            return Err(format!("{what} has a file that stands in a former line already"));
        }
        Ok(new)
    }
}

fn word(words: &[Vec<u8>], at: usize) -> &[u8] {
    words.get(at).map(Vec::as_slice).unwrap_or_default()
}

fn user_name(word: &[u8]) -> Option<&str> {
    let name = std::str::from_utf8(word).ok()?;
    (1..=MOST_USER).contains(&name.len()).then_some(name)
}

fn guest_number(words: &[Vec<u8>]) -> Result<usize, String> {
    let most = MOST_GUESTS as u32 - 1;
    Ok(small("the guest's number", word(words, 1), 0, most)? as usize)
}

/// Something may be said once.
fn once<T>(former: &Option<T>, what: &str) -> Outcome {
    match former {
        Some(_) => Err(format!("{what} in a former line already")),
        None => Ok(()),
    }
}

fn one_of<T: Copy>(what: &str, word: &[u8], known: [(&str, T); 2]) -> Result<T, String> {
    match known.iter().find(|(name, _)| name.as_bytes() == word) {
        Some((_, value)) => Ok(*value),
        None => {
            let [(first, _), (second, _)] = known;
            Err(format!("{what} is neither {first} nor {second}: {}", shown(word)))
        }
    }
}

fn path(what: &str, text: &[u8], most: usize) -> Result<PathBuf, String> {
    if text.is_empty() {
        return Err(format!("{what} has an empty path"));
    }
    if text.len() > most {
        return Err(format!("{what} has a path of more than {most} bytes"));
    }
    Ok(std::ffi::OsStr::from_bytes(text).into())
}

/// A PCI address as Linux writes it: dddd:bb:dd.f in hexadecimal digits, device 00 to 1f, function 0 to 7.
fn pci_address(text: &[u8]) -> Result<String, String> {
    let form = b"hhhh:hh:hh.h";
    let fits = text.len() == form.len()
        && text.iter().zip(form).all(|(byte, wanted)| match wanted {
            b'h' => byte.is_ascii_hexdigit(),
            other => byte == other,
        })
        && matches!(text.get(8), Some(b'0' | b'1'))
        && matches!(text.get(11), Some(b'0'..=b'7'));
    if !fits {
        return Err(format!(
            "the drive's address is not of the form 0000:01:00.0: {}",
            shown(text)
        ));
    }
    Ok(String::from_utf8_lossy(text).into_owned())
}
