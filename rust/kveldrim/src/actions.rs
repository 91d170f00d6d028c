//! The actions of an application, further ways to start it. [`crate::expand_action`] expands the Exec of one.

use crate::{ffi, grown, written, Elements, Refusal};

/// An action that is listed: its identifier, and its label in the language asked for.
#[derive(Debug, Clone, PartialEq, Eq)]
pub struct Action {
    pub identifier: Vec<u8>,
    pub label: Vec<u8>,
}

/// Writes the identifier and the label of each listed action as two records to the start of `out`, and answers how many bytes
/// it wrote: 1 to 7, 9, 11. [`Elements`] reads them.
pub fn actions(file: &[u8], locale: &[u8], out: &mut [u8]) -> Result<usize, Refusal> {
    // SAFETY: the slices and the numbers are lent for this call only; `out` overlaps none of the others.
    written(|[place, byte, written]| unsafe {
        ffi::kveldrim_actions(
            file.as_ptr(),
            file.len(),
            locale.as_ptr(),
            locale.len(),
            out.as_mut_ptr(),
            out.len(),
            place,
            byte,
            written,
        )
    })
}

/// As [`actions`], into a vector: 1 to 7, 9.
///
/// ```
/// let file = b"[Desktop Entry]\nActions=new;\n[Desktop Action new]\nName=New window\nName[de]=Neues Fenster\n";
/// let listed = kveldrim::actions_vec(file, b"de_AT").unwrap();
/// assert_eq!(listed[0].identifier, b"new");
/// assert_eq!(listed[0].label, b"Neues Fenster");
/// ```
pub fn actions_vec(file: &[u8], locale: &[u8]) -> Result<Vec<Action>, Refusal> {
    // Header and Name of a listed action are longer than its two records.
    let records = grown(file.len(), |out| actions(file, locale, out))?;
    let mut texts = Elements::new(&records).map(<[u8]>::to_vec);
    let listed = std::iter::from_fn(|| {
        Some(Action {
            identifier: texts.next()?,
            label: texts.next()?,
        })
    });
    Ok(listed.collect())
}
