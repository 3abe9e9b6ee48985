use ewebasket::{Beta, Draws, Positions, Refusal};

fn main() -> Result<(), Refusal> {
    let draws = Draws {
        uniforms: &[0.5, 0.5],
        ..Draws::default()
    };
    let (sample, after) = Beta::new(2.0, 5.0)?.sample(&draws, Positions::default())?;
    println!("sample {sample}, uniforms used {}", after.uniforms);
    Ok(())
}
