//! Stand-in for yoke: keeps the cart beside the value that borrows from it.
use std::any::Any;
use std::marker::PhantomData;
use std::sync::Arc;
pub use yoke_derive::Yokeable;

pub mod erased {
    pub struct ErasedArcCart;
}

pub struct Yoke<Y, C> {
    value: Y, // dropped before the cart
    cart: Arc<dyn Any>,
    kind: PhantomData<C>,
}

impl<Y, C: 'static> Yoke<Y, Arc<C>> {
    pub fn try_attach_to_cart<E>(
        cart: Arc<C>,
        f: impl FnOnce(&'static C) -> Result<Y, E>,
    ) -> Result<Self, E> {
        // SAFETY: the Arc's contents don't move and outlive `value`.
        let borrowed: &'static C = unsafe { &*Arc::as_ptr(&cart) };
        Ok(Self { value: f(borrowed)?, cart, kind: PhantomData })
    }

    pub fn erase_arc_cart(self) -> Yoke<Y, erased::ErasedArcCart> {
        Yoke { value: self.value, cart: self.cart, kind: PhantomData }
    }
}

impl<Y, C> Yoke<Y, C> {
    pub fn get(&self) -> &Y {
        &self.value
    }
}
