//! Lists that grow without an abort: where memory is refused a call returns `Fault::Memory`.

use crate::Fault;

/// Makes room for so many elements more.
pub(crate) fn reserve<T>(list: &mut Vec<T>, more: usize) -> Result<(), Fault> {
    list.try_reserve(more).map_err(|_| Fault::Memory)
}

/// Pushes an element.
pub(crate) fn push<T>(list: &mut Vec<T>, element: T) -> Result<(), Fault> {
    reserve(list, 1)?;
    list.push(element);
    Ok(())
}

/// Pushes the elements of an iterator, whose least length is reserved at once.
pub(crate) fn extend<T>(list: &mut Vec<T>, elements: impl IntoIterator<Item = T>) -> Result<(), Fault> {
    let elements = elements.into_iter();
    reserve(list, elements.size_hint().0)?;
    elements.into_iter().try_for_each(|element| push(list, element))
}

/// A copy of a list.
pub(crate) fn copy<T: Copy>(elements: &[T]) -> Result<Vec<T>, Fault> {
    let mut list = Vec::new();
    reserve(&mut list, elements.len())?;
    list.extend_from_slice(elements);
    Ok(list)
}

/// The list of the elements of an iterator.
pub(crate) fn collect<T>(elements: impl IntoIterator<Item = T>) -> Result<Vec<T>, Fault> {
    let mut list = Vec::new();
    extend(&mut list, elements)?;
    Ok(list)
}

/// The list of what an iterator returns, or its first error.
pub(crate) fn collect_all<T, E: From<Fault>>(elements: impl IntoIterator<Item = Result<T, E>>) -> Result<Vec<T>, E> {
    let elements = elements.into_iter();
    let mut list = Vec::new();
    reserve(&mut list, elements.size_hint().0)?;
    for element in elements {
        push(&mut list, element?)?;
    }
    Ok(list)
}
