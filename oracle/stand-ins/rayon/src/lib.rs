//! Stand-in for rayon: the one use, `par_iter().map_with(..).collect()`, run in order on one thread.
pub mod iter {
    pub struct Each<'a, T>(std::slice::Iter<'a, T>);

    pub trait ParallelIterator: Sized {
        type Item;
        type Run: Iterator<Item = Self::Item>;

        fn run(self) -> Self::Run;

        fn map_with<S, F, R>(self, init: S, f: F) -> MapWith<Self, S, F>
        where
            F: Fn(&mut S, Self::Item) -> R,
        {
            MapWith { base: self, init, f }
        }

        fn collect<C: FromIterator<Self::Item>>(self) -> C {
            self.run().collect()
        }
    }

    impl<'a, T> ParallelIterator for Each<'a, T> {
        type Item = &'a T;
        type Run = std::slice::Iter<'a, T>;

        fn run(self) -> Self::Run {
            self.0
        }
    }

    pub struct MapWith<B, S, F> {
        base: B,
        init: S,
        f: F,
    }

    pub struct MapWithRun<I, S, F> {
        items: I,
        state: S,
        f: F,
    }

    impl<B, S, F, R> ParallelIterator for MapWith<B, S, F>
    where
        B: ParallelIterator,
        F: Fn(&mut S, B::Item) -> R,
    {
        type Item = R;
        type Run = MapWithRun<B::Run, S, F>;

        fn run(self) -> Self::Run {
            MapWithRun { items: self.base.run(), state: self.init, f: self.f }
        }
    }

    impl<I, S, F, R> Iterator for MapWithRun<I, S, F>
    where
        I: Iterator,
        F: Fn(&mut S, I::Item) -> R,
    {
        type Item = R;

        fn next(&mut self) -> Option<R> {
            let item = self.items.next()?;
            Some((self.f)(&mut self.state, item))
        }
    }

    pub trait IntoParallelRefIterator<'a> {
        type Iter: ParallelIterator;

        fn par_iter(&'a self) -> Self::Iter;
    }

    impl<'a, T: 'a> IntoParallelRefIterator<'a> for Vec<T> {
        type Iter = Each<'a, T>;

        fn par_iter(&'a self) -> Each<'a, T> {
            Each(self.as_slice().iter())
        }
    }
}
