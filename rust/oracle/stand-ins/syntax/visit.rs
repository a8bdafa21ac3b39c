// Stand-in: a type's inner types, one after the other.

use crate::syntax::Type;

pub(crate) trait Visit<'a> {
    fn visit_type(&mut self, ty: &'a Type);
}

pub(crate) fn visit_type<'a, V>(visitor: &mut V, ty: &'a Type)
where
    V: ?Sized + Visit<'a>,
{
    match ty {
        Type::Ident(_) | Type::Str(_) | Type::Void(_) => {}
        Type::RustBox(ty)
        | Type::RustVec(ty)
        | Type::UniquePtr(ty)
        | Type::SharedPtr(ty)
        | Type::WeakPtr(ty)
        | Type::CxxVector(ty) => visitor.visit_type(&ty.inner),
        Type::Ref(ty) => visitor.visit_type(&ty.inner),
        Type::Ptr(ty) => visitor.visit_type(&ty.inner),
        Type::SliceRef(ty) => visitor.visit_type(&ty.inner),
        Type::Array(ty) => visitor.visit_type(&ty.inner),
        Type::Fn(signature) => {
            if let Some(ret) = &signature.ret {
                visitor.visit_type(ret);
            }
            for arg in &signature.args {
                visitor.visit_type(&arg.ty);
            }
        }
    }
}
