//! The delay table.

use crate::answer::Refusal;

#[derive(Debug)]
pub struct Cluster {
    pub width: u32,
    pub alu: u32,
    pub mul: u32,
    pub mem: u32,
    pub copy: u32,
}

#[derive(Debug)]
pub struct Table {
    pub clusters: Vec<Cluster>,
    pub alu_delay: u32,
    pub cmpb_delay: u32,
    pub mul_delay: u32,
    pub load_delay: u32,
    pub copy_delay: u32,
}

/// Reads the table's bytes, or gives refusal 1.
pub fn read(bytes: &[u8]) -> Result<Table, Refusal> {
    let refused = |cause| Err(Refusal::new(1, 0, cause));
    if bytes.is_empty() {
        return refused("table is empty");
    }
    let c = usize::from(bytes[0]);
    if c < 1 {
        return refused("C below 1");
    }
    if c > 4 {
        return refused("C above 4");
    }
    if bytes.len() < 6 + 5 * c {
        return refused("table too short");
    }
    if bytes.len() > 6 + 5 * c {
        return refused("table too long");
    }
    let mut clusters = Vec::new();
    for counts in bytes[1..1 + 5 * c].chunks(5) {
        if counts[0] < 1 {
            return refused("width below 1");
        }
        if counts[0] > 8 {
            return refused("width above 8");
        }
        if counts[1] > 8 {
            return refused("ALU above 8");
        }
        if counts[2] > 4 {
            return refused("MUL above 4");
        }
        if counts[3] > 4 {
            return refused("MEM above 4");
        }
        if counts[4] > 4 {
            return refused("COPY above 4");
        }
        clusters.push(Cluster {
            width: u32::from(counts[0]),
            alu: u32::from(counts[1]),
            mul: u32::from(counts[2]),
            mem: u32::from(counts[3]),
            copy: u32::from(counts[4]),
        });
    }
    let delays = &bytes[1 + 5 * c..];
    if delays.iter().any(|&delay| delay < 1) {
        return refused("delay below 1");
    }
    if delays.iter().any(|&delay| delay > 8) {
        return refused("delay above 8");
    }
    Ok(Table {
        clusters,
        alu_delay: u32::from(delays[0]),
        cmpb_delay: u32::from(delays[1]),
        mul_delay: u32::from(delays[2]),
        load_delay: u32::from(delays[3]),
        copy_delay: u32::from(delays[4]),
    })
}

#[cfg(test)]
mod tests {
    use super::*;

    const ONE: [u8; 11] = [1, 4, 4, 2, 1, 0, 1, 2, 2, 3, 1];

    #[test]
    fn reads_in_the_order_of_the_paper() {
        let table = read(&ONE).unwrap();
        let cluster = &table.clusters[0];
        assert_eq!((cluster.width, cluster.alu, cluster.mul, cluster.mem, cluster.copy), (4, 4, 2, 1, 0));
        assert_eq!(
            (table.alu_delay, table.cmpb_delay, table.mul_delay, table.load_delay, table.copy_delay),
            (1, 2, 2, 3, 1)
        );
    }

    #[test]
    fn limits_on_both_sides() {
        // Position, greatest bad below, least good, greatest good, least bad above.
        let limits: [(usize, Option<u8>, u8, u8, u8); 10] = [
            (1, Some(0), 1, 8, 9),
            (2, None, 0, 8, 9),
            (3, None, 0, 4, 5),
            (4, None, 0, 4, 5),
            (5, None, 0, 4, 5),
            (6, Some(0), 1, 8, 9),
            (7, Some(0), 1, 8, 9),
            (8, Some(0), 1, 8, 9),
            (9, Some(0), 1, 8, 9),
            (10, Some(0), 1, 8, 9),
        ];
        for (position, below, least, greatest, above) in limits {
            let with = |byte| {
                let mut bytes = ONE;
                bytes[position] = byte;
                read(&bytes).err().map(|refusal| (refusal.number, refusal.place))
            };
            if let Some(below) = below {
                assert_eq!(with(below), Some((1, 0)));
            }
            assert_eq!(with(least), None);
            assert_eq!(with(greatest), None);
            assert_eq!(with(above), Some((1, 0)));
        }
    }

    #[test]
    fn length_goes_with_c() {
        assert!(read(&[]).is_err());
        assert!(read(&ONE[..10]).is_err());
        assert!(read(&[&ONE[..], &[1]].concat()).is_err());
        let mut two = ONE;
        two[0] = 2;
        assert!(read(&two).is_err());
        assert!(read(&[2, 4, 4, 2, 1, 0, 4, 4, 2, 1, 0, 1, 2, 2, 3, 1]).is_ok());
        assert!(read(&[0, 1, 2, 2, 3, 1]).is_err());
        let five: Vec<u8> = [&[5][..], &[1; 25], &[1; 5]].concat();
        assert!(read(&five).is_err());
        let four: Vec<u8> = [&[4][..], &[1; 20], &[1; 5]].concat();
        assert!(read(&four).is_ok());
    }
}
