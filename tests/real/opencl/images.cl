// Images of each kind that kernels read and write, with a sampler of the module and one that is given.
constant sampler_t own = CLK_NORMALIZED_COORDS_TRUE | CLK_ADDRESS_REPEAT | CLK_FILTER_LINEAR;

kernel void sampled(read_only image2d_t in, read_only image3d_t deep, read_only image2d_array_t many,
                    write_only image2d_t out, sampler_t given)
{
    int2 at = (int2)(get_global_id(0), get_global_id(1));
    float2 part = convert_float2(at) / convert_float2(get_image_dim(in));
    float4 one = read_imagef(in, own, part);
    one += read_imagef(in, given, at);
    one += read_imagef(deep, own, (float4)(part, 0.5f, 0.0f));
    one += read_imagef(many, given, (int4)(at, get_image_array_size(many) - 1, 0));
    write_imagef(out, at, one * (float)get_image_depth(deep));
}

kernel void fetched(read_only image1d_t line, read_only image1d_buffer_t buffer, read_only image1d_array_t lines,
                    write_only image1d_t out, write_only image3d_t deep)
{
    int at = get_global_id(0);
    uint4 one = read_imageui(line, at) + read_imageui(buffer, at) + read_imageui(lines, (int2)(at, 1));
    if (at < get_image_width(buffer))
        write_imageui(out, at, one);
}

kernel void changed(read_write image2d_t all, read_only image2d_depth_t depth, global int *told)
{
    int2 at = (int2)(get_global_id(0), get_global_id(1));
    int4 one = read_imagei(all, at);
    write_imagei(all, at, one + (int)read_imagef(depth, at));
    told[0] = get_image_channel_data_type(all);
    told[1] = get_image_channel_order(all);
    told[2] = get_image_height(all);
}
