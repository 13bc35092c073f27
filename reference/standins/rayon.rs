//! Parallel loops, which the port leaves out. It only has to compile.

pub mod prelude {
    pub trait InTurn<T> {
        fn par_iter_mut(&mut self) -> std::slice::IterMut<'_, T>;
    }
    impl<T> InTurn<T> for [T] {
        fn par_iter_mut(&mut self) -> std::slice::IterMut<'_, T> {
            self.iter_mut()
        }
    }
}
