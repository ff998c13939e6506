//! What compares the check with the oracle, the patched Rust, and parts that are made with its help, by the processes whose rules they try.
pub mod arrange;
pub mod compare;
pub mod counts;
pub mod dial;
pub mod frame;
pub mod lent;
pub mod parts;
pub mod seen;
pub mod sizes;

pub mod machining {
    pub mod limits;
}

pub mod printing {
    pub mod fit;
    pub mod floors;
    pub mod hollows;
    pub mod jobs;
    pub mod over;
    pub mod ups;
}

pub mod sheet {
    pub mod brackets;
    pub mod jobs;
    pub mod limits;
}
