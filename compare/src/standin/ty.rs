//! A stand-in for `ty.rs`: types, their predicates, `inner_ty` and `concretize`.
//!
//! The predicates are WGSL's classes: scalar is bool and the numbers, numeric is every scalar but bool, float is AbstractFloat, f32 and f16, integer is
//! AbstractInt, i32 and u32. Not shown: a predicate of the crate that takes more or fewer types. Textures, samplers and structures are here
//! as far as the three files name them; i64, u64 and ray queries are not.

use crate::Error;
use crate::conv::conversion_rank;
use crate::syntax::{AccessMode, AddressSpace, SampledType, TexelFormat};

/// A type.
#[derive(Clone, Debug, PartialEq)]
pub enum Type {
    Bool,
    AbstractInt,
    AbstractFloat,
    I32,
    U32,
    F32,
    F16,
    Struct(Box<StructType>),
    Array(Box<Type>, Option<usize>),
    Vec(u8, Box<Type>),
    /// Columns, rows, component.
    Mat(u8, u8, Box<Type>),
    Atomic(Box<Type>),
    Ptr(AddressSpace, Box<Type>, AccessMode),
    Ref(AddressSpace, Box<Type>, AccessMode),
    Texture(TextureType),
}

/// A structure.
#[derive(Clone, Debug, PartialEq)]
pub struct StructType {
    pub name: String,
    pub members: Vec<StructMemberType>,
}

/// A member of a structure.
#[derive(Clone, Debug, PartialEq)]
pub struct StructMemberType {
    pub name: String,
    pub ty: Type,
}

impl StructMemberType {
    pub fn new(name: String, ty: Type) -> Self {
        Self { name, ty }
    }
}

/// What has a type.
pub trait Ty {
    /// The type itself.
    fn ty(&self) -> Type;
    /// The component of a vector or matrix; any other type itself. The three files ask it of nothing else.
    fn inner_ty(&self) -> Type;
}

impl Ty for Type {
    fn ty(&self) -> Type {
        self.clone()
    }
    fn inner_ty(&self) -> Type {
        match self {
            Type::Vec(_, ty) | Type::Mat(_, _, ty) => (**ty).clone(),
            _ => self.clone(),
        }
    }
}

impl Type {
    /// WGSL, "Scalar Types".
    pub fn is_scalar(&self) -> bool {
        self.is_bool() || self.is_numeric()
    }
    /// WGSL, "numeric scalar".
    pub fn is_numeric(&self) -> bool {
        self.is_integer() || self.is_float()
    }
    /// WGSL, "integer scalar".
    pub fn is_integer(&self) -> bool {
        matches!(self, Type::AbstractInt | Type::I32 | Type::U32)
    }
    /// WGSL, "floating point types".
    pub fn is_float(&self) -> bool {
        matches!(self, Type::AbstractFloat | Type::F32 | Type::F16)
    }
    pub fn is_bool(&self) -> bool {
        matches!(self, Type::Bool)
    }
    pub fn is_i32(&self) -> bool {
        matches!(self, Type::I32)
    }
    pub fn is_u32(&self) -> bool {
        matches!(self, Type::U32)
    }
    pub fn is_f32(&self) -> bool {
        matches!(self, Type::F32)
    }
    pub fn is_vec(&self) -> bool {
        matches!(self, Type::Vec(_, _))
    }
    /// WGSL, "abstract types": abstract numbers, and what is made of them.
    pub fn is_abstract(&self) -> bool {
        match self {
            Type::AbstractInt | Type::AbstractFloat => true,
            Type::Vec(_, ty) | Type::Mat(_, _, ty) | Type::Array(ty, _) => ty.is_abstract(),
            Type::Struct(ty) => ty.members.iter().any(|member| member.ty.is_abstract()),
            _ => false,
        }
    }
    /// WGSL, "concrete": no abstract type.
    pub fn is_concrete(&self) -> bool {
        !self.is_abstract()
    }
    /// WGSL, "Storable Types", as far as types are here.
    pub fn is_storable(&self) -> bool {
        !self.is_abstract() && !matches!(self, Type::Ptr(..) | Type::Ref(..))
    }
    /// Whether an automatic conversion is feasible.
    pub fn is_convertible_to(&self, ty: &Type) -> bool {
        conversion_rank(self, ty).is_some()
    }
    /// WGSL, "concretization": AbstractInt becomes i32, AbstractFloat f32.
    pub fn concretize(&self) -> Type {
        match self {
            Type::AbstractInt => Type::I32,
            Type::AbstractFloat => Type::F32,
            Type::Vec(n, ty) => Type::Vec(*n, Box::new(ty.concretize())),
            Type::Mat(c, r, ty) => Type::Mat(*c, *r, Box::new(ty.concretize())),
            Type::Array(ty, n) => Type::Array(Box::new(ty.concretize()), *n),
            _ => self.clone(),
        }
    }
    /// The component of an atomic.
    pub fn unwrap_atomic(self) -> Box<Type> {
        match self {
            Type::Atomic(ty) => ty,
            _ => panic!("no atomic"),
        }
    }
}

impl From<StructType> for Type {
    fn from(ty: StructType) -> Self {
        Type::Struct(Box::new(ty))
    }
}

impl From<SampledType> for Type {
    fn from(ty: SampledType) -> Self {
        match ty {
            SampledType::I32 => Type::I32,
            SampledType::U32 => Type::U32,
            SampledType::F32 => Type::F32,
        }
    }
}

impl TryFrom<&Type> for SampledType {
    type Error = Error;
    fn try_from(ty: &Type) -> Result<Self, Error> {
        match ty {
            Type::I32 => Ok(SampledType::I32),
            Type::U32 => Ok(SampledType::U32),
            Type::F32 => Ok(SampledType::F32),
            _ => Err(Error::Builtin("not a sampled type")),
        }
    }
}

/// Textures, as far as the three files name them.
#[derive(Clone, Debug, PartialEq)]
pub enum TextureType {
    Sampled1D(SampledType),
    Sampled2D(SampledType),
    Sampled2DArray(SampledType),
    Sampled3D(SampledType),
    SampledCube(SampledType),
    SampledCubeArray(SampledType),
    Multisampled2D(SampledType),
    DepthMultisampled2D,
    External,
    Storage1D(TexelFormat, AccessMode),
    Storage2D(TexelFormat, AccessMode),
    Storage2DArray(TexelFormat, AccessMode),
    Storage3D(TexelFormat, AccessMode),
    Depth2D,
}

/// How a texture is addressed.
#[derive(Clone, Copy, Debug, PartialEq, Eq)]
pub enum TextureDimensions {
    D1,
    D2,
    D3,
}

// No comparison hands a texture to the crate: these only let its arms compile.
impl TextureType {
    pub fn dimensions(&self) -> TextureDimensions {
        match self {
            Self::Sampled1D(_) | Self::Storage1D(..) => TextureDimensions::D1,
            Self::Sampled3D(_) | Self::Storage3D(..) => TextureDimensions::D3,
            _ => TextureDimensions::D2,
        }
    }
    pub fn sampled_type(&self) -> Option<SampledType> {
        match self {
            Self::Sampled1D(ty)
            | Self::Sampled2D(ty)
            | Self::Sampled2DArray(ty)
            | Self::Sampled3D(ty)
            | Self::SampledCube(ty)
            | Self::SampledCubeArray(ty) => Some(*ty),
            _ => None,
        }
    }
    pub fn channel_type(&self) -> SampledType {
        match self {
            Self::Multisampled2D(ty) => *ty,
            _ => self.sampled_type().unwrap_or(SampledType::F32),
        }
    }
    pub fn is_sampled(&self) -> bool {
        self.sampled_type().is_some()
    }
    pub fn is_depth(&self) -> bool {
        matches!(self, Self::Depth2D)
    }
    pub fn is_arrayed(&self) -> bool {
        matches!(
            self,
            Self::Sampled2DArray(_) | Self::SampledCubeArray(_) | Self::Storage2DArray(..)
        )
    }
    pub fn is_multisampled(&self) -> bool {
        matches!(self, Self::Multisampled2D(_) | Self::DepthMultisampled2D)
    }
    pub fn is_storage(&self) -> bool {
        matches!(
            self,
            Self::Storage1D(..)
                | Self::Storage2D(..)
                | Self::Storage2DArray(..)
                | Self::Storage3D(..)
        )
    }
}
