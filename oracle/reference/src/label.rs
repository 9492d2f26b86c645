//! Label records and their edits.
use crate::aggregate::{Grouping, Request};
use crate::query::{Join, Matching, Query};
use crate::MAX_TAGS;

pub const NAME: &[u8] = b"__name__";

#[derive(Clone, Debug, PartialEq, Eq, PartialOrd, Ord)]
pub struct Tag {
    pub key: Vec<u8>,
    pub value: Vec<u8>,
}

#[derive(Clone, Debug, Default, PartialEq, Eq, PartialOrd, Ord)]
pub struct Labels {
    pub name: Vec<u8>,
    pub tags: Vec<Tag>,
}

/// What is wrong with a record: number 3 or 4.
#[derive(Clone, Copy, Debug, PartialEq, Eq)]
pub enum Fault {
    Cut,
    Keys,
}

impl Fault {
    pub fn number(self) -> u64 {
        match self {
            Fault::Cut => 3,
            Fault::Keys => 4,
        }
    }
}

/// Reads the record at the start of `bytes`, and says how long it is. "Records go in order, 3 before 4 within each": the
/// record is walked to its end before its keys are judged.
pub fn take_record(bytes: &[u8]) -> Result<(Labels, usize), Fault> {
    let (labels, length) = walk(bytes).ok_or(Fault::Cut)?;
    // "4, an empty key, key order or `__name__`"; "keys strictly ascending by bytes, no key `__name__`".
    let ascending = labels.tags.windows(2).all(|w| w[0].key < w[1].key);
    if !ascending || labels.tags.iter().any(|t| t.key.is_empty() || t.key == NAME) {
        return Err(Fault::Keys);
    }
    Ok((labels, length))
}

/// "Record: name length (1 byte), name, tag count (1), then per tag key length (1), key, value length (1), value."
/// "3, ... a record cut or over 32 tags".
fn walk(bytes: &[u8]) -> Option<(Labels, usize)> {
    let mut rest = bytes;
    let name = take_short(&mut rest)?;
    let (&count, after) = rest.split_first()?;
    rest = after;
    if usize::from(count) > MAX_TAGS {
        return None;
    }
    let mut tags = Vec::new();
    for _ in 0..count {
        let key = take_short(&mut rest)?;
        let value = take_short(&mut rest)?;
        tags.push(Tag { key, value });
    }
    Some((Labels { name, tags }, bytes.len() - rest.len()))
}

fn take_short(rest: &mut &[u8]) -> Option<Vec<u8>> {
    let (&length, after) = rest.split_first()?;
    let (bytes, after) = after.split_at_checked(usize::from(length))?;
    *rest = after;
    Some(bytes.to_vec())
}

fn listed(list: &[Vec<u8>], key: &[u8]) -> bool {
    list.iter().any(|l| l == key)
}

impl Labels {
    pub fn record(&self) -> Vec<u8> {
        let mut out = vec![self.name.len() as u8];
        out.extend_from_slice(&self.name);
        out.push(self.tags.len() as u8);
        for tag in &self.tags {
            for bytes in [&tag.key, &tag.value] {
                out.push(bytes.len() as u8);
                out.extend_from_slice(bytes);
            }
        }
        out
    }

    /// "An empty tag value counts as present."
    fn value(&self, key: &[u8]) -> Option<&[u8]> {
        if key == NAME {
            return Some(&self.name);
        }
        self.tags.iter().find(|t| t.key == key).map(|t| t.value.as_slice())
    }

    /// "The key is the tags in the `on` list, or outside the `ignoring` list, or all; the name is never in it,
    /// `on(__name__)` included."
    pub fn key(&self, query: &Query) -> Vec<Tag> {
        let chosen = |t: &&Tag| match query.matching {
            Matching::None => true,
            Matching::On => listed(&query.matching_list, &t.key),
            Matching::Ignoring => !listed(&query.matching_list, &t.key),
        };
        self.tags.iter().filter(chosen).cloned().collect()
    }

    /// "`remove_tags_on` keeps listed tags and clears the name unless `__name__` is listed."
    fn remove_tags_on(&mut self, list: &[Vec<u8>]) {
        if !listed(list, NAME) {
            self.name.clear();
        }
        self.tags.retain(|t| listed(list, &t.key));
    }

    /// "`remove_tags_ignoring` removes listed tags, and the name if `__name__` is listed."
    fn remove_tags_ignoring(&mut self, list: &[Vec<u8>]) {
        if listed(list, NAME) {
            self.name.clear();
        }
        self.tags.retain(|t| !listed(list, &t.key));
    }

    fn set(&mut self, key: &[u8], value: &[u8]) {
        if key == NAME {
            self.name = value.to_vec();
            return;
        }
        self.tags.retain(|t| t.key != key);
        self.tags.push(Tag { key: key.to_vec(), value: value.to_vec() });
        self.tags.sort();
    }

    fn remove(&mut self, key: &[u8]) {
        self.tags.retain(|t| t.key != key);
    }

    /// "`set_tags` with prefix empty: each join label outside the skip list (the `on` list, else empty) is set from the source
    /// series, `__name__` from its name, or removed if absent there; the one-label list `*` copies every tag outside the skip
    /// list, never the name."
    fn set_tags(&mut self, join_list: &[Vec<u8>], skip: &[Vec<u8>], source: &Labels) {
        if join_list.len() == 1 && join_list[0] == b"*" {
            for tag in source.tags.iter().filter(|t| !listed(skip, &t.key)) {
                self.set(&tag.key, &tag.value);
            }
            return;
        }
        for label in join_list.iter().filter(|l| !listed(skip, l)) {
            match source.value(label) {
                Some(value) => self.set(label, value),
                None => self.remove(label),
            }
        }
    }

    /// "The left label is then edited as `adjust_binary_op_tags` does": the name reset where it says, then `remove_tags_on`
    /// with the list, to which keep_metric_names adds `__name__`, or `remove_tags_ignoring` with the list, empty for none.
    pub fn edited_one_to_one(&self, query: &Query) -> Labels {
        let mut edited = self.clone();
        if should_reset_metric_group(query) {
            edited.name.clear();
        }
        let mut list = query.matching_list.clone();
        if query.matching == Matching::On {
            if query.keep_names {
                list.push(NAME.to_vec());
            }
            edited.remove_tags_on(&list);
        } else {
            edited.remove_tags_ignoring(&list);
        }
        edited
    }

    /// A many-side label: "its name cleared where `should_reset_metric_group` says and its tags then set by `set_tags`".
    pub fn edited_join(&self, query: &Query, source: &Labels) -> Labels {
        debug_assert!(matches!(query.join, Join::GroupLeft | Join::GroupRight));
        let mut edited = self.clone();
        if should_reset_metric_group(query) {
            edited.name.clear();
        }
        let skip: &[Vec<u8>] = if query.matching == Matching::On { &query.matching_list } else { &[] };
        edited.set_tags(&query.join_list, skip, source);
        edited
    }

    /// 02: "with `by` or `without` as `remove_group_tags` edits labels". `by` keeps the listed tags, and the name if `__name__`
    /// is listed; `without` takes the listed tags out, and always the name. Nothing is said of `*`: it is a label like others.
    pub fn edited_total(&self, request: &Request) -> Labels {
        let mut edited = self.clone();
        match request.grouping {
            Grouping::By => edited.remove_tags_on(&request.list),
            Grouping::Without => {
                edited.remove_tags_ignoring(&request.list);
                edited.name.clear();
            }
        }
        edited
    }
}

/// As the Rust's: not for a comparison without bool, not where names are kept, not for logical operators.
fn should_reset_metric_group(query: &Query) -> bool {
    let plain_comparison = query.op.is_comparison() && !query.bool_flag;
    !plain_comparison && !query.keep_names && !query.op.is_logical_op()
}
