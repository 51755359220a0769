//! Stand-in for bvh: every shape is a candidate of every ray, in list order (document 01, "Oracle").

pub mod aabb {
    use nalgebra::Point3;

    #[derive(Clone, Copy)]
    pub struct Aabb<T, const D: usize> {
        pub min: Point3<T>,
        pub max: Point3<T>,
    }

    impl<T, const D: usize> Aabb<T, D> {
        pub fn with_bounds(min: Point3<T>, max: Point3<T>) -> Self {
            Self { min, max }
        }
    }

    pub trait Bounded<T, const D: usize> {
        fn aabb(&self) -> Aabb<T, D>;
    }
}

pub mod bounding_hierarchy {
    pub trait BHShape<T, const D: usize>: crate::aabb::Bounded<T, D> {
        fn set_bh_node_index(&mut self, index: usize);
        fn bh_node_index(&self) -> usize;
    }
}

pub mod ray {
    use nalgebra::{Point3, Vector3};

    pub struct Ray<T, const D: usize> {
        pub origin: Point3<T>,
        pub direction: Vector3<T>,
    }

    impl<T, const D: usize> Ray<T, D> {
        pub fn new(origin: Point3<T>, direction: Vector3<T>) -> Self {
            Self { origin, direction }
        }
    }
}

#[cfg(feature = "tree")]
#[path = "tree.rs"]
pub mod bvh;

#[cfg(not(feature = "tree"))]
pub mod bvh {
    use crate::bounding_hierarchy::BHShape;
    use crate::ray::Ray;
    use std::marker::PhantomData;

    pub struct Bvh<T, const D: usize> {
        kept: PhantomData<T>,
    }

    impl<T, const D: usize> Bvh<T, D> {
        pub fn build<S: BHShape<T, D>>(_shapes: &mut [S]) -> Self {
            Self { kept: PhantomData }
        }

        pub fn traverse<'a, S: BHShape<T, D>>(
            &self,
            _ray: &Ray<T, D>,
            shapes: &'a [S],
        ) -> std::slice::Iter<'a, S> {
            shapes.iter()
        }
    }
}
