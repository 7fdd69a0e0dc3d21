#![forbid(unsafe_code)]
//! One line of the log.

use std::fmt::{self, Debug, Write};
use std::time::{SystemTime, UNIX_EPOCH};

use tracing::field::{Field, Visit};
use tracing::{Event, Level};

use super::LINE_BYTES;

/// What an event says.
#[derive(Debug, Default)]
pub(super) struct Line {
    /// The guest's number, where the event has a field `guest`.
    pub(super) guest: Option<u64>,
    message: String,
    fields: String,
}

impl Line {
    pub(super) fn new(guest: Option<u64>, message: fmt::Arguments<'_>) -> Self {
        Self {
            guest,
            message: message.to_string(),
            fields: String::new(),
        }
    }

    pub(super) fn of(event: &Event<'_>) -> Self {
        let mut line = Self::default();
        event.record(&mut line);
        line
    }

    /// The line with a time and a level, ending with a line feed. What came from outside may be in it: control characters are shown as escapes.
    pub(super) fn text(&self, time: SystemTime, level: Level) -> String {
        let mut text = String::with_capacity(128);
        let _ = write!(text, "{} {level:<5} ", Utc(time));
        if let Some(guest) = self.guest {
            let _ = write!(text, "guest {guest}: ");
        }
        for c in self.message.chars().chain(self.fields.chars()) {
            if text.len() > LINE_BYTES - 16 {
                text.push_str(" ...");
                break;
            }
            if c.is_control() {
                text.extend(c.escape_default());
            } else {
                text.push(c);
            }
        }
        text.push('\n');
        text
    }
}

impl Visit for Line {
    fn record_u64(&mut self, field: &Field, value: u64) {
        if field.name() == "guest" {
            self.guest = Some(value);
        } else {
            self.record_debug(field, &value);
        }
    }

    fn record_i64(&mut self, field: &Field, value: i64) {
        match u64::try_from(value) {
            Ok(value) => self.record_u64(field, value),
            Err(_) => self.record_debug(field, &value),
        }
    }

    fn record_debug(&mut self, field: &Field, value: &dyn Debug) {
        let _ = match field.name() {
            "message" => write!(self.message, "{value:?}"),
            name => write!(self.fields, " {name}={value:?}"),
        };
    }
}

/// A time as `2026-12-01T05:33:24.123Z`. What is before 1970 is shown as its beginning.
struct Utc(SystemTime);

impl fmt::Display for Utc {
    fn fmt(&self, f: &mut fmt::Formatter<'_>) -> fmt::Result {
        let since = self.0.duration_since(UNIX_EPOCH).unwrap_or_default();
        let (days, second) = (since.as_secs() / 86_400, since.as_secs() % 86_400);
        let (year, month, day) = date(days);
        let (hour, minute, second) = (second / 3600, second / 60 % 60, second % 60);
        write!(
            f,
            "{year:04}-{month:02}-{day:02}T{hour:02}:{minute:02}:{second:02}.{:03}Z",
            since.subsec_millis()
        )
    }
}

/// Year, month and day of the Gregorian calendar, so many days after 1970-01-01.
///
/// Years are counted from March on, so that the leap day is a year's last; 400 years have 146,097 days.
fn date(days: u64) -> (u64, u64, u64) {
    let days = days + 719_468; // from 0000-03-01
    let (era, day_of_era) = (days / 146_097, days % 146_097);
    let year_of_era = (day_of_era - day_of_era / 1460 + day_of_era / 36_524 - day_of_era / 146_096) / 365;
    let day_of_year = day_of_era - (365 * year_of_era + year_of_era / 4 - year_of_era / 100);
    let from_march = (5 * day_of_year + 2) / 153;
    let day = day_of_year - (153 * from_march + 2) / 5 + 1;
    let month = if from_march < 10 {
        from_march + 3
    } else {
        from_march - 9
    };
    (era * 400 + year_of_era + u64::from(month <= 2), month, day)
}

#[cfg(test)]
mod tests {
    use super::*;
    use std::time::Duration;

    fn shown(milliseconds: u64) -> String {
        Utc(UNIX_EPOCH + Duration::from_millis(milliseconds)).to_string()
    }

    #[test]
    fn times() {
        assert_eq!(shown(0), "1970-01-01T00:00:00.000Z");
        assert_eq!(shown(951_827_696_789), "2000-02-29T12:34:56.789Z");
        assert_eq!(shown(1_709_164_799_999), "2024-02-28T23:59:59.999Z");
        assert_eq!(shown(1_796_103_204_005), "2026-12-01T05:33:24.005Z");
        assert_eq!(shown(4_107_542_400_000), "2100-03-01T00:00:00.000Z");
        assert_eq!(
            Utc(UNIX_EPOCH - Duration::from_secs(1)).to_string(),
            "1970-01-01T00:00:00.000Z"
        );
    }

    /// Each day of 800 years follows the one before.
    #[test]
    fn days() {
        let mut before = date(0);
        for day in 1..800 * 366 {
            let (y, m, d) = date(day);
            let next = match before {
                _ if d > 1 => (before.0, before.1, before.2 + 1),
                (y, 12, 31) => (y + 1, 1, 1),
                (y, m, d) => {
                    let leap = y % 4 == 0 && (y % 100 != 0 || y % 400 == 0);
                    let last = [31, 28 + u64::from(leap), 31, 30, 31, 30, 31, 31, 30, 31, 30, 31][m as usize - 1];
                    assert_eq!(d, last);
                    (y, m + 1, 1)
                }
            };
            assert_eq!((y, m, d), next);
            before = next;
        }
    }

    #[test]
    fn a_line_is_one_line_and_has_a_bound() {
        let line = Line::new(Some(3), format_args!("a\nb\u{1b}[0m\u{85}"));
        let text = line.text(UNIX_EPOCH, Level::WARN);
        assert_eq!(text, "1970-01-01T00:00:00.000Z WARN  guest 3: a\\nb\\u{1b}[0m\\u{85}\n");
        let text = Line::new(None, format_args!("{}", "ü".repeat(5000))).text(UNIX_EPOCH, Level::INFO);
        assert!(text.len() <= LINE_BYTES && text.ends_with("ü ...\n"));
    }

    /// Text as a client's or a drive's may be: any characters, control characters among them.
    fn any_text(random: &mut impl FnMut() -> u64) -> String {
        let most = [20, 200, 2 * LINE_BYTES as u64][(random() % 3) as usize];
        (0..random() % most)
            .map(|_| match random() % 4 {
                0 => char::from(random() as u8),
                1 => char::from_u32(random() as u32 % 0x11_0000).unwrap_or('\u{2028}'),
                _ => char::from(b' ' + (random() % 95) as u8),
            })
            .collect()
    }

    fn shown_as(c: char) -> String {
        match c {
            '\t' => "\\t".to_owned(),
            '\n' => "\\n".to_owned(),
            '\r' => "\\r".to_owned(),
            c if c.is_control() => format!("\\u{{{:x}}}", u32::from(c)),
            c => c.to_string(),
        }
    }

    /// Any text is one line within its bound. Other characters than control characters stay as they are, up to where it is cut.
    #[test]
    fn any_text_is_one_line() {
        let mut state = 0x9e37_79b9_7f4a_7c15u64;
        let mut random = || {
            state ^= state << 13;
            state ^= state >> 7;
            state ^= state << 17;
            state
        };
        let mut cut = 0;
        for _ in 0..5000 {
            let said = any_text(&mut random);
            let text = Line::new(None, format_args!("{said}")).text(UNIX_EPOCH, Level::INFO);
            let line = text.strip_suffix('\n').unwrap();
            assert!(text.len() <= LINE_BYTES && !line.contains(char::is_control));
            let shown = line.strip_prefix("1970-01-01T00:00:00.000Z INFO  ").unwrap();
            let whole: String = said.chars().map(shown_as).collect();
            if shown != whole {
                let begin = shown.strip_suffix(" ...").unwrap();
                assert!(
                    whole.starts_with(begin) && text.len() > LINE_BYTES - 16,
                    "{said:?}: {text:?}"
                );
                cut += 1;
            }
        }
        assert!(cut > 100, "{cut} of them are cut");
    }
}
