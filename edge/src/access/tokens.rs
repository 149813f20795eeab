//! A file of tokens: who may call, and what he may do. No token stands in it, but what SHA-256 makes of one.
//!
//! ```text
//! # name, hash, rights
//! dashboard sha256:9f86..0a08 read
//! mail      sha256:60303..52a work:mail,orders read
//! ```
//!
//! A token is drawn and long, so nothing slower than one hash is needed: no list of likely ones can be tried.

use super::caller::Caller;
use super::rights::Rights;
use sha2::{Digest, Sha256};
use std::fs;
use std::sync::{Arc, PoisonError, RwLock};

const BEGIN: &str = "sha256:";
const LONGEST_NAME: usize = 64;

type Hash = [u8; 32];

/// The tokens of a file, which is read again when that is asked for.
#[derive(Debug)]
pub struct TokenFile {
    path: String,
    /// How many calls a second each name may make.
    limit: Option<u32>,
    tokens: RwLock<Arc<Tokens>>,
}

impl TokenFile {
    /// Reads a file, or says what is wrong with it.
    pub fn open(path: &str, limit: Option<u32>) -> Result<TokenFile, String> {
        let tokens = RwLock::new(Arc::new(Tokens::read(path, limit)?));
        Ok(TokenFile { path: path.to_string(), limit, tokens })
    }

    /// Reads it again. Where it can't be read, what it had before goes on to count.
    pub fn read_again(&self) -> Result<usize, String> {
        let tokens = Arc::new(Tokens::read(&self.path, self.limit)?);
        let count = tokens.0.len();
        *self.tokens.write().unwrap_or_else(PoisonError::into_inner) = tokens;
        Ok(count)
    }

    /// Who bears this token.
    pub fn bearer(&self, token: &[u8]) -> Option<Arc<Caller>> {
        let tokens = self.tokens.read().unwrap_or_else(PoisonError::into_inner).clone();
        tokens.bearer(token)
    }
}

/// Tokens by their hashes.
#[derive(Debug, Default)]
pub struct Tokens(Vec<(Hash, Arc<Caller>)>);

impl Tokens {
    fn read(path: &str, limit: Option<u32>) -> Result<Tokens, String> {
        let text = fs::read_to_string(path).map_err(|fault| format!("{path}: {fault}"))?;
        Tokens::parse(&text, limit).map_err(|fault| format!("{path}: {fault}"))
    }

    /// Reads the text of a file.
    pub fn parse(text: &str, limit: Option<u32>) -> Result<Tokens, String> {
        let mut tokens = Tokens::default();
        for (number, line) in (1..).zip(text.lines()) {
            // A remark is a word of its own, and goes on to the line's end.
            let words: Vec<&str> = line.split_whitespace().take_while(|word| !word.starts_with('#')).collect();
            if !words.is_empty() {
                tokens.add(&words, limit).map_err(|fault| format!("line {number}: {fault}"))?;
            }
        }
        if tokens.0.is_empty() {
            return Err("it has no token: wf token new NAME writes one".to_string());
        }
        Ok(tokens)
    }

    fn add(&mut self, words: &[&str], limit: Option<u32>) -> Result<(), String> {
        let mut words = words.iter().copied();
        let name = words.next().filter(|name| is_name(name));
        let name = name.ok_or_else(|| format!("a name has 1 to {LONGEST_NAME} letters, digits, dots, - and _"))?;
        let hash = words.next().and_then(hash_in);
        let hash = hash.ok_or_else(|| format!("behind the name stands {BEGIN} and 64 hexadecimal digits"))?;
        if self.0.iter().any(|(other, caller)| *other == hash || *caller.name == *name) {
            return Err(format!("the name {name} or its token stands there twice"));
        }
        let caller = Caller::new(name, Rights::parse(words)?, limit);
        self.0.push((hash, Arc::new(caller)));
        Ok(())
    }

    /// Who bears this token. It is compared with all hashes, each to its end, so the time tells nothing of them.
    pub fn bearer(&self, token: &[u8]) -> Option<Arc<Caller>> {
        let given: Hash = Sha256::digest(token).into();
        let mut found = None;
        for (hash, caller) in &self.0 {
            if is_same(&given, hash) {
                found = Some(caller);
            }
        }
        found.cloned()
    }
}

/// Whether two texts are the same, in a time that doesn't tell where they differ.
pub fn is_same(given: &[u8], wanted: &[u8]) -> bool {
    let differing = given.iter().zip(wanted).fold(0, |differing, (one, other)| differing | (one ^ other));
    given.len() == wanted.len() && differing == 0
}

fn is_name(name: &str) -> bool {
    let is_plain = |letter: char| letter.is_ascii_alphanumeric() || ".-_".contains(letter);
    name.len() <= LONGEST_NAME
        && name.chars().all(is_plain)
        && name.chars().any(|letter| letter.is_ascii_alphanumeric())
}

fn hash_in(word: &str) -> Option<Hash> {
    let digits = word.strip_prefix(BEGIN).filter(|digits| digits.len() == 64 && digits.is_ascii())?;
    let mut hash = [0; 32];
    for (place, byte) in hash.iter_mut().enumerate() {
        // A sign is no digit.
        let pair = digits.get(2 * place..2 * place + 2).filter(|pair| pair.bytes().all(|it| it.is_ascii_hexdigit()))?;
        *byte = u8::from_str_radix(pair, 16).ok()?;
    }
    Some(hash)
}
