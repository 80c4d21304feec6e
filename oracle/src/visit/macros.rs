//! Stand-in for petgraph's visit/macros.rs, which is not among the given sources.
//!
//! `trait_template!` makes the trait, without the marks `@section` and `@escape`.
//! `delegate_impl` is answered for `GraphBase` and `Data` alone, on `&G` and `&mut G`: the traits below lean on these.
//! For every other trait it makes nothing.

macro_rules! trait_template {
    ($(#[$note:meta])* pub trait $name:ident $(: $bound:ident $(+ $more:ident)*)? { $($body:tt)* }) => {
        macro_rules! $name {
            (delegate_impl $target:tt) => {
                delegate! { $name $target }
            };
        }
        without_marks! { [$(#[$note])* pub trait $name $(: $bound $(+ $more)*)?] [] $($body)* }
    };
}

macro_rules! without_marks {
    ([$($head:tt)*] [$($kept:tt)*]) => {
        $($head)* { $($kept)* }
    };
    ($head:tt $kept:tt @section $word:tt $($rest:tt)*) => {
        without_marks! { $head $kept $($rest)* }
    };
    ($head:tt $kept:tt @escape $word:tt $($rest:tt)*) => {
        without_marks! { $head $kept $($rest)* }
    };
    ($head:tt [$($kept:tt)*] $next:tt $($rest:tt)*) => {
        without_marks! { $head [$($kept)* $next] $($rest)* }
    };
}

macro_rules! delegate {
    (GraphBase []) => {
        delegate! { GraphBase on &G }
    };
    (GraphBase [['a, G], G, &'a mut G, deref]) => {
        delegate! { GraphBase on &mut G }
    };
    (GraphBase on $target:ty) => {
        impl<G: GraphBase> GraphBase for $target {
            type NodeId = G::NodeId;
            type EdgeId = G::EdgeId;
        }
    };
    (Data []) => {
        delegate! { Data on &G }
    };
    (Data [['a, G], G, &'a mut G, deref]) => {
        delegate! { Data on &mut G }
    };
    (Data on $target:ty) => {
        impl<G: Data> Data for $target {
            type NodeWeight = G::NodeWeight;
            type EdgeWeight = G::EdgeWeight;
        }
    };
    ($name:ident $target:tt) => {};
}
