use alloc::vec;
use alloc::vec::Vec;

use crate::{Column, Refusal};

/// Which numbers a column carries.
impl Column<'_> {
    /// Whether a number is an element. A log whose number is none is filled.
    ///
    /// ```
    /// let column = loftsplice::Column::new(&[10, 30], &[4, 5], &[5, 0])?; // 10 15 20 25, 30
    /// assert!(column.contains(15)?);
    /// assert!(!column.contains(16)?);
    /// # Ok::<(), loftsplice::Refusal>(())
    /// ```
    ///
    /// # Errors
    ///
    /// [`Refusal::Order`] if the column doesn't rise.
    pub fn contains(&self, number: i64) -> Result<bool, Refusal> {
        Ok(self.scan().seek(number)? == Some(number))
    }

    /// Whether each of these numbers is an element, in the order in which they stand, which may be any: one run of seeks, of the numbers in their own
    /// order, answers all of them.
    ///
    /// ```
    /// let column = loftsplice::Column::new(&[10, 30], &[4, 5], &[5, 0])?; // 10 15 20 25, 30
    /// assert_eq!(column.carried(&[30, 16, 15, 31])?, [true, false, true, false]);
    /// # Ok::<(), loftsplice::Refusal>(())
    /// ```
    ///
    /// # Errors
    ///
    /// [`Refusal::Order`] if the column doesn't rise.
    pub fn carried(&self, numbers: &[i64]) -> Result<Vec<bool>, Refusal> {
        let mut order: Vec<usize> = (0..numbers.len()).collect();
        order.sort_by_key(|&place| numbers[place]);
        let targets: Vec<i64> = order.iter().map(|&place| numbers[place]).collect();
        let mut found = vec![0; numbers.len()];
        let count = self.scan().seek_run(&targets, &mut found)?;
        let mut carried = vec![false; numbers.len()];
        for (place, value) in order.into_iter().zip(&found[..count]) {
            carried[place] = numbers[place] == *value;
        }
        Ok(carried)
    }
}
