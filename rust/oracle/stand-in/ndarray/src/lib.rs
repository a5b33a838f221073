//! A stand-in for ndarray's Array2: the part that munkres 0.5.2 uses, written for it.
//!
//! A row-major Vec. Speed as ndarray's: an index is tested once on each axis and then read without a second test of the offset; rows are
//! slices, columns step through the Vec by the row's length.
use std::ops::{Index, IndexMut};

#[derive(Debug, Clone)]
pub struct Array2<T> {
    cells: Vec<T>,
    shape: [usize; 2],
}

#[derive(Debug)]
pub struct ShapeError;

impl<T> Array2<T> {
    pub fn from_shape_vec((rows, columns): (usize, usize), cells: Vec<T>) -> Result<Self, ShapeError> {
        if rows.checked_mul(columns) == Some(cells.len()) {
            Ok(Array2 { cells, shape: [rows, columns] })
        } else {
            Err(ShapeError)
        }
    }

    pub fn from_shape_fn<F: FnMut((usize, usize)) -> T>((rows, columns): (usize, usize), mut f: F) -> Self {
        let mut cells = Vec::with_capacity(rows * columns);
        for row in 0..rows {
            for column in 0..columns {
                cells.push(f((row, column)));
            }
        }
        Array2 { cells, shape: [rows, columns] }
    }

    #[inline]
    pub fn shape(&self) -> &[usize] {
        &self.shape
    }

    #[inline]
    fn offset(&self, (row, column): (usize, usize)) -> Option<usize> {
        let [rows, columns] = self.shape;
        (row < rows && column < columns).then(|| row * columns + column)
    }

    #[inline]
    pub fn get_mut(&mut self, at: (usize, usize)) -> Option<&mut T> {
        let offset = self.offset(at)?;
        self.cells.get_mut(offset)
    }

    pub fn as_slice(&self) -> Option<&[T]> {
        Some(&self.cells)
    }

    pub fn iter_mut(&mut self) -> std::slice::IterMut<'_, T> {
        self.cells.iter_mut()
    }

    #[inline]
    pub fn row(&self, row: usize) -> Row<'_, T> {
        let [rows, columns] = self.shape;
        assert!(row < rows);
        Row(&self.cells[row * columns..][..columns])
    }

    #[inline]
    pub fn column(&self, column: usize) -> Column<'_, T> {
        let [_, columns] = self.shape;
        assert!(column < columns);
        Column { cells: &self.cells[column..], step: columns }
    }

    #[inline]
    pub fn row_mut(&mut self, row: usize) -> RowMut<'_, T> {
        let [rows, columns] = self.shape;
        assert!(row < rows);
        RowMut(&mut self.cells[row * columns..][..columns])
    }

    #[inline]
    pub fn column_mut(&mut self, column: usize) -> ColumnMut<'_, T> {
        let [_, columns] = self.shape;
        assert!(column < columns);
        ColumnMut { cells: &mut self.cells[column..], step: columns }
    }

    pub fn genrows(&self) -> impl Iterator<Item = Row<'_, T>> {
        self.cells.chunks_exact(self.shape[1]).map(Row)
    }
}

impl<T> Index<(usize, usize)> for Array2<T> {
    type Output = T;

    #[inline]
    fn index(&self, at: (usize, usize)) -> &T {
        let offset = self.offset(at).expect("index out of bounds");
        // SAFETY: both axes were tested, and the Vec has rows * columns cells.
        unsafe { self.cells.get_unchecked(offset) }
    }
}

impl<T> IndexMut<(usize, usize)> for Array2<T> {
    #[inline]
    fn index_mut(&mut self, at: (usize, usize)) -> &mut T {
        let offset = self.offset(at).expect("index out of bounds");
        // SAFETY: as above.
        unsafe { self.cells.get_unchecked_mut(offset) }
    }
}

/// A row: neighbours, so that the compiler can take several at a time.
pub struct Row<'a, T>(&'a [T]);

impl<T> Row<'_, T> {
    #[inline]
    pub fn iter(&self) -> std::slice::Iter<'_, T> {
        self.0.iter()
    }
}

pub struct RowMut<'a, T>(&'a mut [T]);

impl<T: Clone> RowMut<'_, T> {
    #[inline]
    pub fn mapv_inplace<F: FnMut(T) -> T>(&mut self, mut f: F) {
        self.0.iter_mut().for_each(|cell| *cell = f(cell.clone()));
    }
}

/// A column: every `step`-th cell.
pub struct Column<'a, T> {
    cells: &'a [T],
    step: usize,
}

impl<T> Column<'_, T> {
    #[inline]
    pub fn iter(&self) -> std::iter::StepBy<std::slice::Iter<'_, T>> {
        self.cells.iter().step_by(self.step)
    }
}

pub struct ColumnMut<'a, T> {
    cells: &'a mut [T],
    step: usize,
}

impl<T: Clone> ColumnMut<'_, T> {
    #[inline]
    pub fn mapv_inplace<F: FnMut(T) -> T>(&mut self, mut f: F) {
        self.cells.iter_mut().step_by(self.step).for_each(|cell| *cell = f(cell.clone()));
    }
}
