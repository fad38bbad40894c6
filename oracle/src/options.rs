//! Options of a command: `--name value`, one pair after another.

use std::num::ParseIntError;

/// Where random numbers begin unless `--seed` says otherwise.
pub const SEED: u64 = 0x5eed;

/// Hands each option to `take`, which answers whether it knows the name.
pub fn each(
    arguments: &[String],
    mut take: impl FnMut(&str, &str) -> Result<bool, ParseIntError>,
) -> Result<(), String> {
    for pair in arguments.chunks(2) {
        let [name, value] = pair else {
            return Err(format!("`{}` needs a value", pair[0]));
        };
        let known = take(name, value).map_err(|_| format!("`{value}` is no value for `{name}`"))?;
        if !known {
            return Err(format!("no option `{name}`"));
        }
    }
    Ok(())
}

pub fn count(value: &str) -> Result<usize, ParseIntError> {
    Ok(value.parse::<u32>()? as usize)
}

pub fn seed(value: &str) -> Result<u64, ParseIntError> {
    u64::from_str_radix(value, 16)
}

#[cfg(test)]
mod tests {
    use super::*;

    fn read(arguments: &[&str]) -> Result<(usize, u64), String> {
        let arguments: Vec<String> = arguments.iter().map(|word| word.to_string()).collect();
        let mut read = (1, SEED);
        each(&arguments, |name, value| {
            match name {
                "--count" => read.0 = count(value)?,
                "--seed" => read.1 = seed(value)?,
                _ => return Ok(false),
            }
            Ok(true)
        })?;
        Ok(read)
    }

    #[test]
    fn options_are_read_in_any_order() {
        assert_eq!(read(&[]), Ok((1, SEED)));
        assert_eq!(
            read(&["--seed", "c0ffee", "--count", "7"]),
            Ok((7, 0xc0ffee))
        );
    }

    #[test]
    fn what_is_wrong_is_named() {
        let said = |arguments: &[&str]| read(arguments).unwrap_err();
        assert_eq!(said(&["--seed"]), "`--seed` needs a value");
        assert_eq!(said(&["--count", "-1"]), "`-1` is no value for `--count`");
        assert_eq!(said(&["--depth", "3"]), "no option `--depth`");
    }
}
