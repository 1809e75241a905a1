//! Keys of ZeroMQ's CURVE, as texts of 40 characters (Z85).
use crate::config::{Config, Options};
use crate::fault::{Fault, at_path};
use std::ffi::{CString, c_char, c_int};
use std::fmt;
use std::fs::{File, OpenOptions};
use std::io::{self, Write};
use std::os::unix::fs::{OpenOptionsExt, PermissionsExt};
use std::path::Path;
use std::str::FromStr;

const LETTERS: usize = 40;

unsafe extern "C" {
    /// Of ZeroMQ's library; the crate doesn't hand it on.
    fn zmq_curve_public(public: *mut c_char, secret: *const c_char) -> c_int;
}

/// A key of 32 bytes, secret or public.
#[derive(Clone, Copy, PartialEq, Eq, Hash)]
pub struct Key(pub(crate) [u8; 32]);

impl fmt::Debug for Key {
    /// Nothing of the key, which may be a secret one.
    fn fmt(&self, f: &mut fmt::Formatter<'_>) -> fmt::Result {
        f.write_str("Key(..)")
    }
}

impl FromStr for Key {
    type Err = Fault;

    fn from_str(text: &str) -> Result<Self, Fault> {
        let key = zmq::z85_decode(text).ok().and_then(|it| it.try_into().ok()).map(Self);
        // (ZeroMQ takes some letters that aren't of Z85)
        key.filter(|it| it.text() == text).ok_or_else(|| Fault::Road("a key has 40 characters of Z85".to_string()))
    }
}

impl Key {
    /// The key as it is written.
    pub fn text(&self) -> String {
        zmq::z85_encode(&self.0).expect("32 bytes have a text")
    }

    /// The public key of this secret one.
    fn public(&self) -> Result<Self, Fault> {
        let secret = CString::new(self.text()).expect("a text has no zero");
        let mut told = [0u8; LETTERS + 1];
        // SAFETY: the secret key is a text of 40 characters with its end, and there is room for 40 and an end.
        let code = unsafe { zmq_curve_public(told.as_mut_ptr().cast::<c_char>(), secret.as_ptr()) };
        if code != 0 {
            return Err(Fault::Road("ZeroMQ has no CURVE here".to_string()));
        }
        String::from_utf8_lossy(&told[..LETTERS]).parse()
    }

    /// A secret key from a file that only its owner may read.
    ///
    /// # Errors
    ///
    /// Where the file can't be read, others may read it too, or it has no key.
    pub fn read_secret(path: &Path) -> Result<Self, Fault> {
        let read = || {
            let file = File::open(path)?;
            let is_others = file.metadata()?.permissions().mode() & 0o077 != 0;
            Ok((is_others, io::read_to_string(file)?))
        };
        let (is_others, text) = read().map_err(|why| at_path(path, why))?;
        if is_others {
            return Err(Fault::Road(format!("{}: others may read this secret key: chmod 600", path.display())));
        }
        text.trim().parse()
    }
}

/// Makes a pair of keys. The secret one goes into a new file that only its owner may read, and the public one is told.
pub fn write_new_keys(path: &Path) -> Result<Key, Fault> {
    let pair = zmq::CurveKeyPair::new()?;
    let file = OpenOptions::new().write(true).create_new(true).mode(0o600).open(path);
    let written = file.and_then(|mut it| writeln!(it, "{}", Key(pair.secret_key).text()));
    written.map_err(|why| at_path(path, why))?;
    Ok(Key(pair.public_key))
}

/// The own secret key, and the public key of each process.
#[derive(Clone, Debug)]
pub struct Keys {
    pub(crate) secret: Key,
    pub(crate) known: Vec<Key>,
}

impl Keys {
    /// The keys of the process `me`.
    ///
    /// # Errors
    ///
    /// Where two processes have the same key, or the secret one isn't that of this process.
    pub fn new(me: u8, secret: Key, known: Vec<Key>) -> Result<Self, Fault> {
        let twice = known.iter().enumerate().any(|(at, key)| known[..at].contains(key));
        if twice {
            return Err(Fault::Road("each process needs a key of its own".to_string()));
        }
        if known.get(usize::from(me)) != Some(&secret.public()?) {
            return Err(Fault::Road(format!("the secret key isn't that of process {me}")));
        }
        Ok(Self { secret, known })
    }

    /// Those of the configuration, where it has some.
    pub(crate) fn of(config: &Config, options: &Options) -> Result<Option<Self>, Fault> {
        let Some(known) = config.nodes.iter().map(|it| it.key).collect() else { return Ok(None) };
        let why = "the configuration has keys: a secret one is needed";
        let secret = options.secret.ok_or_else(|| Fault::Road(why.to_string()))?;
        Self::new(options.me, secret, known).map(Some)
    }
}

#[cfg(test)]
mod tests {
    use super::*;

    /// The pair of keys in the manual page of `zmq_curve`.
    const PUBLIC: &str = "Yne@$w-vo<fVvi]a<NY6T1ed:M$fCG*[IaLV{hID";
    const SECRET: &str = "D:)Q[IlAW!ahhC2ac:9*A}h:p?([4%wOTJ%JR%cs";

    #[test]
    fn a_secret_key_has_its_public_one() {
        let (public, secret): (Key, Key) = (PUBLIC.parse().expect("a key"), SECRET.parse().expect("a key"));
        assert_eq!(secret.public().expect("a key"), public);
        assert_eq!(public.text(), PUBLIC);
    }

    #[test]
    fn keys_of_other_processes_are_refused() {
        let (public, secret): (Key, Key) = (PUBLIC.parse().expect("a key"), SECRET.parse().expect("a key"));
        assert!(Keys::new(0, secret, vec![public, secret]).is_ok());
        for (me, known) in
            [(1, vec![public, secret]), (0, vec![public, public]), (0, vec![]), (2, vec![public, secret])]
        {
            assert!(Keys::new(me, secret, known).is_err());
        }
    }

    #[test]
    fn other_texts_are_no_keys() {
        for text in ["", "abc", &PUBLIC[1..], &PUBLIC.replace('Y', "~"), &PUBLIC.replace('Y', "\0"), &"é".repeat(20)] {
            assert!(text.parse::<Key>().is_err(), "{text:?}");
        }
    }
}
