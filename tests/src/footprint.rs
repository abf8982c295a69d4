//! What a byte may have touched on the glass.

use crate::glass::WIDTH;

#[derive(Clone, Debug, PartialEq, Eq)]
pub enum Footprint {
    Nothing,
    Whole,
    /// Single dots, some perhaps beyond the glass.
    Dots(Vec<(usize, usize)>),
    /// Columns x1 to x2 and rows y1 to y2, perhaps reaching beyond the glass.
    Rectangle {
        x1: usize,
        y1: usize,
        x2: usize,
        y2: usize,
    },
}

impl Footprint {
    pub fn rectangle(x1: u8, y1: u8, x2: u8, y2: u8) -> Footprint {
        Footprint::Rectangle { x1: x1 as usize, y1: y1 as usize, x2: x2 as usize, y2: y2 as usize }
    }

    /// Every dot of a glass with so many rows that it covers, as a grid of the glass's size.
    pub fn cover(&self, rows: usize) -> Vec<bool> {
        let mut grid = vec![false; WIDTH * rows];
        match self {
            Footprint::Nothing => {}
            Footprint::Whole => grid.fill(true),
            Footprint::Dots(dots) => {
                for &(x, y) in dots {
                    if x < WIDTH && y < rows {
                        grid[y * WIDTH + x] = true;
                    }
                }
            }
            Footprint::Rectangle { x1, y1, x2, y2 } => {
                for y in *y1..=*y2 {
                    for x in *x1..=*x2 {
                        if x < WIDTH && y < rows {
                            grid[y * WIDTH + x] = true;
                        }
                    }
                }
            }
        }
        grid
    }
}
