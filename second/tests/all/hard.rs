//! Tables and cascades that take long, made by formula.

use samples::inverse;
use second::hard::{hard, standing_rows};
use second::tidying::tidy;

#[test]
fn standing_rows_stand_in_any_order() {
    for order in 0..4 {
        let mut cascade = standing_rows(order).concat();
        let tidied = tidy(6, &mut cascade).unwrap();
        assert_eq!((tidied.gates, tidied.steps), (683, 0));
        // The first passes all others and goes with its inverse behind them.
        let mut undone = standing_rows(order);
        undone.push(inverse(undone[0]));
        let tidied = tidy(6, &mut undone.concat()).unwrap();
        assert_eq!((tidied.gates, tidied.steps), (682, 1));
    }
}

#[test]
fn hard_ones_are_cascades_of_any_length() {
    for (_, recipe) in hard() {
        for gates in [0, 1, 100, 8_000] {
            let mut cascade = recipe.cascade(gates);
            assert_eq!(cascade.len(), 8 * gates);
            assert!(tidy(6, &mut cascade).is_ok());
        }
    }
}
