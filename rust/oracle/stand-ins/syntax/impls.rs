// Stand-in: a function gives its signature's fields, and types are compared
// and hashed by what they are.

use crate::syntax::{ExternFn, Lifetimes, Receiver, Signature, Type};
use std::hash::{Hash, Hasher};
use std::mem;
use std::ops::Deref;

impl Deref for ExternFn {
    type Target = Signature;

    fn deref(&self) -> &Signature {
        &self.sig
    }
}

impl PartialEq for Lifetimes {
    fn eq(&self, other: &Self) -> bool {
        self.lifetimes.len() == other.lifetimes.len()
    }
}

impl Eq for Lifetimes {}

impl Hash for Lifetimes {
    fn hash<H: Hasher>(&self, state: &mut H) {
        self.lifetimes.len().hash(state);
    }
}

impl PartialEq for Receiver {
    fn eq(&self, other: &Self) -> bool {
        self.mutable == other.mutable && self.ty == other.ty
    }
}

impl Hash for Receiver {
    fn hash<H: Hasher>(&self, state: &mut H) {
        (self.mutable, &self.ty).hash(state);
    }
}

impl PartialEq for Type {
    fn eq(&self, other: &Self) -> bool {
        match (self, other) {
            (Type::Ident(one), Type::Ident(two)) => one == two,
            (Type::RustBox(one), Type::RustBox(two))
            | (Type::RustVec(one), Type::RustVec(two))
            | (Type::UniquePtr(one), Type::UniquePtr(two))
            | (Type::SharedPtr(one), Type::SharedPtr(two))
            | (Type::WeakPtr(one), Type::WeakPtr(two))
            | (Type::CxxVector(one), Type::CxxVector(two)) => one.inner == two.inner,
            (Type::Ref(one), Type::Ref(two)) | (Type::Str(one), Type::Str(two)) => {
                one.mutable == two.mutable && one.inner == two.inner
            }
            (Type::Ptr(one), Type::Ptr(two)) => {
                one.mutable == two.mutable && one.inner == two.inner
            }
            (Type::SliceRef(one), Type::SliceRef(two)) => {
                one.mutable == two.mutable && one.inner == two.inner
            }
            (Type::Array(one), Type::Array(two)) => one.len == two.len && one.inner == two.inner,
            (Type::Fn(one), Type::Fn(two)) => one == two,
            (Type::Void(_), Type::Void(_)) => true,
            _ => false,
        }
    }
}

impl Eq for Type {}

impl Hash for Type {
    fn hash<H: Hasher>(&self, state: &mut H) {
        mem::discriminant(self).hash(state);
        match self {
            Type::Ident(ty) => ty.hash(state),
            Type::RustBox(ty)
            | Type::RustVec(ty)
            | Type::UniquePtr(ty)
            | Type::SharedPtr(ty)
            | Type::WeakPtr(ty)
            | Type::CxxVector(ty) => ty.inner.hash(state),
            Type::Ref(ty) | Type::Str(ty) => (ty.mutable, &ty.inner).hash(state),
            Type::Ptr(ty) => (ty.mutable, &ty.inner).hash(state),
            Type::SliceRef(ty) => (ty.mutable, &ty.inner).hash(state),
            Type::Array(ty) => (ty.len, &ty.inner).hash(state),
            Type::Fn(signature) => signature.hash(state),
            Type::Void(_) => {}
        }
    }
}

impl PartialEq for Signature {
    fn eq(&self, other: &Self) -> bool {
        self.kind == other.kind
            && self.throws == other.throws
            && self.ret == other.ret
            && self.args.len() == other.args.len()
            && self
                .args
                .iter()
                .zip(&other.args)
                .all(|(one, two)| one.ty == two.ty)
    }
}

impl Hash for Signature {
    fn hash<H: Hasher>(&self, state: &mut H) {
        (&self.kind, self.throws, &self.ret).hash(state);
        for arg in &self.args {
            arg.ty.hash(state);
        }
    }
}
