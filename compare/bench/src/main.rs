//! `bench`: fills of the proved library and of rand_distr's own modules at the same kernels in plain Rust, on the same draws, one after
//! the other in one process. Each time is the least of many rounds, and every sample is compared.

mod timing;

use compare::inputs::Random;
use compare::kernels;
use ewebasket::{Beta, Draws, Gamma, Positions, Refusal, StudentT};
use oracle::inputs::{exponential, normal};
use oracle::rand_distr::Distribution;
use oracle::{beta, gamma, student_t, Lent, Replay, K};
use timing::{chained, least, Least};

/// One fill, here and there.
struct Case {
    name: &'static str,
    here: fn(&Draws, &mut [f64]) -> Result<Positions, Refusal>,
    there: fn(&mut Replay, &mut [K]),
}

const CASES: [Case; 7] = [
    Case {
        name: "Beta(2, 5)",
        here: |draws, out| Beta::new(2.0, 5.0)?.fill(draws, Positions::default(), out),
        there: |draws, out| filled(&beta(2.0, 5.0).unwrap(), draws, out),
    },
    Case {
        name: "Gamma(0.5, 1)",
        here: |draws, out| Gamma::new(0.5, 1.0)?.fill(draws, Positions::default(), out),
        there: |draws, out| filled(&gamma(0.5, 1.0).unwrap(), draws, out),
    },
    Case {
        name: "Student(4)",
        here: |draws, out| StudentT::new(4.0)?.fill(draws, Positions::default(), out),
        there: |draws, out| filled(&student_t(4.0).unwrap(), draws, out),
    },
    Case {
        name: "Beta(0.5, 0.5)",
        here: |draws, out| Beta::new(0.5, 0.5)?.fill(draws, Positions::default(), out),
        there: |draws, out| filled(&beta(0.5, 0.5).unwrap(), draws, out),
    },
    Case {
        name: "Gamma(1, 2)",
        here: |draws, out| Gamma::new(1.0, 2.0)?.fill(draws, Positions::default(), out),
        there: |draws, out| filled(&gamma(1.0, 2.0).unwrap(), draws, out),
    },
    Case {
        name: "Gamma(3, 1)",
        here: |draws, out| Gamma::new(3.0, 1.0)?.fill(draws, Positions::default(), out),
        there: |draws, out| filled(&gamma(3.0, 1.0).unwrap(), draws, out),
    },
    Case {
        name: "Gamma(0.01, 1)",
        here: |draws, out| Gamma::new(0.01, 1.0)?.fill(draws, Positions::default(), out),
        there: |draws, out| filled(&gamma(0.01, 1.0).unwrap(), draws, out),
    },
];

fn filled<D: Distribution<K>>(sampler: &D, draws: &mut Replay, out: &mut [K]) {
    for cell in out {
        *cell = sampler.sample(draws);
    }
}

/// Draws enough for a million samples of any case.
struct Lists {
    uniforms: Vec<f64>,
    normals: Vec<f64>,
    exponentials: Vec<f64>,
}

impl Lists {
    fn new(count: usize) -> Self {
        let mut random = Random::new(112);
        let uniforms = (0..count).map(|_| random.unit()).collect();
        let normals = (0..count).map(|_| normal(&mut random)).collect();
        let exponentials = (0..count).map(|_| exponential(&mut random)).collect();
        Lists {
            uniforms,
            normals,
            exponentials,
        }
    }

    fn draws(&self) -> Draws<'_> {
        Draws {
            uniforms: &self.uniforms,
            normals: &self.normals,
            exponentials: &self.exponentials,
        }
    }

    fn lent(&self) -> Lent<'_> {
        Lent {
            uniforms: &self.uniforms,
            normals: &self.normals,
            exponentials: &self.exponentials,
        }
    }
}

/// Nanoseconds a sample, here and there.
fn timed(case: &Case, lists: &Lists, count: usize, rounds: usize) -> [f64; 2] {
    let mut here = vec![0.0; count];
    let mut there = vec![K(0.0); count];
    let mut least = [Least::new(), Least::new()];
    // A short fill is over before a clock can tell, so it is made again and again.
    let times = (65_536 / count).max(1);
    for _ in 0..rounds {
        let after = least[0].of(times, || (case.here)(&lists.draws(), &mut here));
        let replay = least[1].of(times, || {
            let mut replay = Replay::new(lists.lent(), oracle::Positions::default());
            (case.there)(&mut replay, &mut there);
            replay.at()
        });
        assert_eq!(after.expect("draws enough").uniforms, replay.uniforms);
    }
    for (a, b) in here.iter().zip(&there) {
        assert_eq!(a.to_bits(), oracle::bits(*b), "{}", case.name);
    }
    least.map(|least| least.nanoseconds(times * count))
}

fn fills(lists: &Lists) {
    println!("| fill | elements | here, ns a sample | Rust | ratio |");
    println!("|---|---|---|---|---|");
    for (number, case) in CASES.iter().enumerate() {
        // The three that document 02 names at every length, the others at its own.
        let counts: &[usize] = if number < 3 {
            &[64, 4_096, 65_536, 1_000_000]
        } else {
            &[65_536]
        };
        for &count in counts {
            let rounds = if count > 65_536 { 10 } else { 60 };
            let [here, there] = timed(case, lists, count, rounds);
            println!(
                "| {} | {count} | {here:.1} | {there:.1} | {:.2} |",
                case.name,
                here / there
            );
        }
    }
}

fn calls(lists: &Lists) {
    type Kernel = fn(f64) -> f64;
    let kernels: [(&str, Kernel, Kernel); 6] = [
        ("ln", ewebasket::ln, kernels::ln),
        (
            "exp",
            |x| ewebasket::exp(-8.0 * x),
            |x| kernels::exp(-8.0 * x),
        ),
        (
            "powf(x, 2.5)",
            |x| ewebasket::powf(x, 2.5),
            |x| kernels::powf(x, 2.5),
        ),
        ("sqrt", ewebasket::sqrt, kernels::sqrt),
        // Answers that are subnormal.
        (
            "exp in (-745, -708.4)",
            |x| ewebasket::exp(-708.4 - 36.6 * x),
            |x| kernels::exp(-708.4 - 36.6 * x),
        ),
        (
            "powf(1/2, (1022, 1074))",
            |x| ewebasket::powf(0.5, 1022.0 + 52.0 * x),
            |x| kernels::powf(0.5, 1022.0 + 52.0 * x),
        ),
    ];
    println!("| kernel | here, ns a call | Rust |");
    println!("|---|---|---|");
    let arguments = &lists.uniforms[..65_536];
    for (name, here, there) in kernels {
        let [a, b] = [here, there].map(|kernel| least(60, arguments, kernel));
        println!("| {name} | {a:.1} | {b:.1} |");
    }
    let [a, b] = [ewebasket::sqrt, kernels::sqrt].map(|sqrt| chained(60, arguments, sqrt));
    println!("| sqrt, chained | {a:.1} | {b:.1} |");
}

fn main() {
    let lists = Lists::new(4_000_000);
    fills(&lists);
    println!();
    calls(&lists);
}
